"""Worked examples of salvage, by hand: what becomes of each page behind two good header pages."""
import re

from index import text
from made import SERIAL, head, stream, tags, whole
from pages import CONTINUED, FIRST, NO_GRANULE, Page, write_page

WRONG_FLAG = 8

# Each page as its old number and its form, its form in what is saved, and what is told of it. A form is `c` where the page is
# marked continued, `x` where a wrong flag is set, and the lacing values; `255*3` is three of them.
EXAMPLES = (
    # the pieces on both sides of a break go
    (('2 [3 255]', '[3]', 'cut 255'), ('4 c[4 9]', '[9]', 'number mark cut 4')),
    # all pieces of a cut packet go; a page that is left with nothing stays
    (('2 [3 255]', '[3]', 'cut 255'), ('3 c[255]', '[]', 'mark cut 255'), ('5 [9]', '[9]', 'number')),
    # unless its granule position is that of a packet, by 11
    (('2 [3 255]', '[3]', 'cut 255'), ('4 c[4]', '', 'skip'), ('5 [9]', '[9]', 'number')),
    # a doubled page goes, by 17, and so does the break that it made
    (('2 [3 255]', '[3 255]', ''), ('2 [3 255]', '', 'skip'), ('3 c[4 9]', 'c[4 9]', '')),
    # a piece of no bytes
    (('2 [3]', '[3]', ''), ('4 c[0 9]', '[9]', 'number mark cut 0')),
    # a packet over four pages, with bytes on one of them
    (('2 [3]', '[3]', ''), ('4 c[]', '[]', 'number mark'), ('5 c[]', '[]', 'number mark'),
     ('6 c[255]', '[]', 'number mark cut 255'), ('7 c[]', '[]', 'number mark'), ('9 [3]', '[3]', 'number')),
    # a page that contradicts the one before it goes, by 8, and leaves a break
    (('2 [3 255]', '[3]', 'cut 255'), ('3 [4]', '', 'skip'), ('4 [9]', '[9]', 'number')),
    # one that continues nothing stays where a later break cuts its packet
    (('2 [3]', '[3]', ''), ('3 c[255]', '[]', 'mark cut 255'), ('5 [9]', '[9]', 'number')),
    # a packet that the very end cuts stays
    (('2 [3 255]', '[3 255]', ''),),
    # 3 passes 61,440 bytes once 4 heals the break behind it
    (('2 [3 255]', '[3]', 'cut 255'), ('3 c[4 9 255*241]', '', 'skip'), ('20 x[3]', '', 'skip'),
     ('4 c[5 6]', '[6]', 'number mark cut 5')),
    # 3 would be emptied, and accepted, once 4 is missing; it is not tried again
    (('2 [3 255]', '[3]', 'cut 255'), ('3 c[255*240]', '', 'skip'), ('4 xc[5 6]', '', 'skip'), ('20 [6]', '[6]', 'number')),
)


def values_of(words):
    """The lacing values that are written so."""
    pairs = [(*word.split('*'), 1)[:2] for word in words.split()]
    return bytes(int(value) for value, times in pairs for _ in range(int(times)))


def body_of(values, continued):
    """Packets of 120 samples: one frame with a first byte, and zeros."""
    body, begins = b'', not continued
    for value in values:
        body += bytes([0xe0 * begins] + value * [0])[:value]
        begins = value < 255
    return body


def page_of(form, granule, sequence):
    marks, words = re.fullmatch(r'([cx]*)\[(.*)\]', form).groups()
    flags, values = CONTINUED * ('c' in marks) + WRONG_FLAG * ('x' in marks), values_of(words)
    return write_page(Page(flags, granule, SERIAL, sequence, values, body_of(values, 'c' in marks)))


def granule_of(form, sequence):
    """A granule position that grows, where a packet ends on the page."""
    ends = any(value < 255 for value in values_of(form[form.index('[') + 1:-1]))
    return 1000 * sequence if ends else NO_GRANULE


def told_of(told, place, size):
    """The lines of a page: of `told`, with the bytes."""
    words = told.replace('number', 'number 4').replace('mark', 'mark 1').replace('skip', f'skip {size}').split()
    return [(what, place, int(count)) for what, count in zip(words[::2], words[1::2])]


def with_lines(lines, more):
    """Lines and those of the next page; what is skipped there is one run with what was skipped up to there."""
    if lines and more and lines[-1][0] == more[0][0] == 'skip' and sum(lines[-1][1:]) == more[0][1]:
        return lines[:-1] + [('skip', lines[-1][1], lines[-1][2] + more[0][2])]
    return lines + more


def example(pages):
    """The bytes of an example, what is saved of them, and what is printed."""
    data = saved = stream([whole(FIRST, 0, head()), whole(0, 0, tags())])
    lines, kept = [], 2
    for old, new, told in pages:
        number, form = old.split(' ', 1)
        granule = granule_of(form, int(number))
        page = page_of(form, granule, int(number))
        lines = with_lines(lines, told_of(told, len(data), len(page)))
        data += page
        if new:
            saved += page_of(new, granule, kept)
            kept += 1
    return data, saved, text(*(' '.join(map(str, line)) for line in lines))


def examples():
    """(name, bytes, what is saved of them, what is printed) of each."""
    for pages in EXAMPLES:
        yield ', '.join(old for old, _, _ in pages), *example(pages)
