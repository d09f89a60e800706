"""Runs of `embulgri seek`, by the index of a recording and by a listing of one, and of `embulgri index` on a long recording.
All are held to index.py."""
import os
import threading

from index import HEADING, PRE_ROLL, index, index_lines, seek_lines
from made import pages_stream, short_stream
from pages import cut
from programs import ROOT
from runs import DONE, REFUSED, TROUBLE, counts, fault, must, refusal_due
from stopped import own_memory_of

END = 2**64 - 1                         # the last position: the last record is found there
MANY = 40000                            # pages of a long recording, the index of which takes the program's buffer many times
GROWTH = 128                            # KiB by which memory may grow beside 20 bytes a record

WRONG_POSITIONS = ('', ' ', 'x', ' 5', '5 ', '+5', '-5', '5.0', '5,000', '1e3', '0x10', '5s', '5\n', '\u0665', b'\xff',
                   b'5\xff', '18446744073709551616', '99999999999999999999', '1' + 100 * '0', 'NaN', '--5')

# what is no first line of a listing, and what is no other line of one
WRONG_HEADINGS = ('', HEADING, f'{HEADING}\r\n', f'{HEADING} \n', f'{HEADING} probes\n', f'\n{HEADING}\n',
                  f'{HEADING.upper()}\n', f'\ufeff{HEADING}\n', f'x{HEADING}\n', 'granule sequence place\n',
                  'refused 3 page 5\n', 'end dur frames kept\n', '\0')
WRONG_LINES = ('\n', ' \n', '0\n', '0 0\n', '0 0 0 0\n', '0  0 0\n', ' 0 0 0\n', '0 0 0 \n', '0\t0\t0\n', '0,0,0\n',
               '+0 0 0\n', '-1 0 0\n', '0 0 -1\n', '00 0 0\n', '0 01 0\n', '0 0 007\n', '0x0 0 0\n', '0.0 0 0\n',
               '1e1 0 0\n', 'x 0 0\n', '0 x 0\n', '\u0660 0 0\n', '0 0 0\r\n', '0 0 0\0\n', '\0\n', f'{HEADING}\n',
               '18446744073709551616 0 0\n', '0 18446744073709551616 0\n', '0 0 4294967296\n',
               '0 0 18446744073709551616\n', f'1{100 * "0"} 0 0\n', 'refused 3 page 5\n')


def due(records, position):
    """What a search in these records prints, and the status and the message that are due."""
    printed = seek_lines(records, position)
    if not printed.startswith(b'refused '):
        return printed, DONE, b''
    return printed, REFUSED, b': the record at place %d is refused by 26: ' % int(printed.split()[-1])


def must_find(name, words, records, position, **options):
    must(f'seek {position}, {name}', ['seek', *words, str(position)], *due(records, int(position)), **options)
    counts['seeks'] += 1


def must_fail(name, words, message, position=END, **options):
    must(f'seek {position}, {name}', ['seek', *words, str(position)], b'', TROUBLE, message, **options)
    counts['seeks in trouble'] += 1


def compare(name, data, path, number):
    """On a stream in a file, at a position that goes by a number; if the stream is whole, by its listing too."""
    records, refusal = index(data)
    if refusal:
        must(f'seek, {name}', ['seek', path, '5000'], f'{refusal}\n'.encode(), REFUSED, refusal_due(refusal, data))
        counts[f'seek {REFUSED}'] += 1
        return
    granules = [0, *(record.granule for record in records)]
    position = granules[number % len(granules)] + PRE_ROLL + number % 3 - 1
    listing = path.with_suffix('.index')
    listing.write_bytes(index_lines(records))
    must_find(name, [path], records, position)
    must_find(f'{name}, by a listing', [path, '--index', listing], records, position)
    counts[f'seek {DONE}'] += 1


def run_incomplete(folder):
    """Streams that end between the pages of their headers."""
    path, pages = folder / 'incomplete.opus', cut(short_stream())
    for count in range(3):
        data = b''.join(pages[:count])
        path.write_bytes(data)
        line = 'refused 24'
        for words in ['index', path], ['seek', path, '0']:
            must(f'{words[0]}, {count} pages', words, f'{line}\n'.encode(), REFUSED, refusal_due(line, data))


def recording(folder, data=short_stream()):
    """Files with a recording and with its listing, and its records."""
    path, listing = folder / 'sought.opus', folder / 'sought.index'
    records, _ = index(data)
    path.write_bytes(data)
    listing.write_bytes(index_lines(records))
    return path, listing, records


def positions(records):
    """Positions about each record, and the least and the greatest."""
    about = {record.granule + PRE_ROLL + step for record in records for step in (-1, 0, 1)}
    return sorted(about | {0, 1, PRE_ROLL - 1, PRE_ROLL, PRE_ROLL + 1, 2**63 - 1, 2**63, END - 1, END})


def run_positions(folder):
    """In streams of few records and of none, from a file, by a listing, and from a pipe."""
    drip = (ROOT / 'examples/drip.opus').read_bytes()
    for name, data in ('short', short_stream()), ('drip', drip), *((f'{n} pages', pages_stream(n)) for n in range(10)):
        path, listing, records = recording(folder, data)
        for position in positions(records):
            must_find(name, [path], records, position)
            must_find(f'{name}, by a listing', ['--index', listing, path], records, position)
        for position in 0, PRE_ROLL + 240, END:
            must_find(f'{name}, from a pipe', [], records, position, input=data)
            must_find(f'{name}, from a pipe by a listing', ['-', '--index', listing], records, position, input=data)
            must_find(f'{name}, by a listing from a pipe', [path, '--index', '-'], records, position,
                      input=listing.read_bytes())


def wrong_listings(lines):
    """(listing, its first wrong line) made of the lines of a good one."""
    yield b'', 1
    yield short_stream(), 1
    for heading in WRONG_HEADINGS:
        yield heading.encode() + b''.join(lines[1:]), 1
    for line in WRONG_LINES:
        for at in range(1, len(lines) + 1):
            yield b''.join([*lines[:at], line.encode(), *lines[at:]]), at + 1
    whole = b''.join(lines)
    for size in range(1, len(whole)):
        if not whole[:size].endswith(b'\n'):
            yield whole[:size], whole[:size].count(b'\n') + 1
    yield whole + b'0', len(lines) + 1
    yield whole + whole, len(lines) + 1


def run_wrong_listings(folder):
    """The first wrong line is told. A listing that is cut after a line has fewer records; one out of order is refused."""
    path, listing, records = recording(folder)
    words, lines = [path, '--index', listing], index_lines(records).splitlines(True)
    for text, line in wrong_listings(lines):
        listing.write_bytes(text)
        must_fail(f'listing {text[-40:]!r}', words, f': line {line} of "{listing}" is '.encode())
    for count in range(len(records)):
        listing.write_bytes(b''.join(lines[:1 + count]))
        must_find(f'listing of {count} records', words, records[:count], END)
    for at in range(1, len(records)):
        other = [*records[:at - 1], records[at], records[at - 1], *records[at + 1:]]
        listing.write_bytes(index_lines(other))
        for position in 0, PRE_ROLL, END:
            must_find(f'listing with record {at} before the last one', words, other, position)


def run_unfit_listings(folder):
    """A listing of another recording, or with a number changed: where such a record is found, its page is not there."""
    path, listing, records = recording(folder)
    words, data, last = [path, '--index', listing], short_stream(), records[-1]
    changed = [last._replace(granule=last.granule + step) for step in (-1, 1, 2**40)]
    changed += [last._replace(sequence=last.sequence + step) for step in (-1, 1, 2**31)]
    places = 0, 1, records[0].place, last.place - 1, last.place + 1, *range(len(data) - 27, len(data) + 2), 2**63, END
    changed += [last._replace(place=place) for place in places]
    for other in changed:
        others = [*records[:-1], other]
        listing.write_bytes(index_lines(others))
        what = (f'no page with granule position {other.granule} and sequence number {other.sequence} starts at byte '
                f'{other.place}\n')
        unfit = f': line {len(others) + 1} of "{listing}" does not fit'
        must_fail(f'{other}', words, f'{unfit} "{path}": {what}'.encode())
        must_fail(f'{other}, from a pipe', words[1:], f'{unfit} standard input: {what}'.encode(), input=data)
        must_find(f'{other}, not reached', words, others, records[0].granule + PRE_ROLL)
    drip, _ = index((ROOT / 'examples/drip.opus').read_bytes())
    listing.write_bytes(index_lines(drip))
    for position in 100000, END:
        must_fail('listing of another recording', words, b' does not fit ', position)
    must_find('listing of another recording, not reached', words, drip, PRE_ROLL)


def run_damaged_recordings(folder):
    """By a listing, only the page that is found is looked at: damage to others is not seen, and damage to it is."""
    path, listing, records = recording(folder)
    words, data, position = [path, '--index', listing], short_stream(), records[-2].granule + PRE_ROLL
    page = range(records[-2].place, records[-1].place)
    for place in {*range(0, len(data), 7)}.difference(page):
        path.write_bytes(data[:place] + bytes([data[place] ^ 255]) + data[place + 1:])
        must_find(f'byte {place} changed', words, records, position)
    path.write_bytes(data[:page.stop])
    must_find('cut after the page', words, records, position)
    for place in page:
        path.write_bytes(data[:place] + bytes([data[place] ^ 1]) + data[place + 1:])
        must_fail(f'byte {place} of the page changed', words, b' does not fit ', position)
        path.write_bytes(data[:place])
        must_fail(f'cut at byte {place}', words, b' does not fit ', position)


def run_inputs(folder):
    """Files that are missing, directories or pipes, names like options, and standard input from another place."""
    path, listing, records = recording(folder)
    for wrong in folder, folder / 'missing', '', '/proc/self/mem':
        must_fail(f'recording {wrong}', [wrong], b'cannot read')
        must_fail(f'recording {wrong}, by a listing', [wrong, '--index', listing], b'cannot read')
        must_fail(f'listing {wrong}', [path, '--index', wrong], b'cannot read')
    os.mkfifo(folder / 'listing')
    writer = threading.Thread(target=(folder / 'listing').write_bytes, args=(listing.read_bytes(),))
    writer.start()
    must_find('listing in a named pipe', [path, '--index', folder / 'listing'], records, END)
    writer.join()
    for name in '--index', '--help', '-5':
        (folder / name).write_bytes(path.read_bytes())
        (folder / f'{name}.index').write_bytes(listing.read_bytes())
        must_find(f'recording {name}', ['--index', f'{name}.index', '--', name], records, END, cwd=folder)
    with open(folder / 'joined', 'w+b') as file:
        file.write(b'drip' * 2000 + path.read_bytes())
        for words in ['-'], ['-', '--index', listing]:
            file.seek(8000)
            must_find('standard input after 8000 bytes', words, records, END, stdin=file)
    must_fail('no standard input', ['-'], b'cannot read', preexec_fn=lambda: os.close(0))


def run_arguments(folder):
    path, listing, records = recording(folder)
    for position in WRONG_POSITIONS:
        must(f'seek {position!r}', ['seek', path, position], b'', TROUBLE, b'see embulgri ')
        must(f'seek -- {position!r}', ['seek', '--', path, position], b'', TROUBLE, b' is no position, ')
    for words in ([], [path], [path, '5', '6'], ['5', path], [path, '5', '-x'], [path, '5', '--index'], [path, path, '5'],
                  ['--index', listing, path, '5', '--index', listing], ['--index', '5'], ['-', '5', '--index', '-'],
                  ['5', '--index', '-'], [path, '5', f'--index={listing}']):
        must(f'seek {words}', ['seek', *words], b'', TROUBLE, b'see embulgri ', input=short_stream())
    for word in 'list', 'tags', 'index':
        must(f'{word} --index', [word, path, '--index', listing], b'', TROUBLE, b'unknown option')
        must(f'{word} of two', [word, path, path], b'', TROUBLE, b'one word too many')
    must_find('zeros before the position', [path], records, '005000')


def run_long(folder):
    """An index of many records, and the memory that it takes."""
    memories = []
    for pages in MANY // 4, MANY:
        path, listing, records = recording(folder, pages_stream(pages))
        must(f'index of {pages} pages', ['index', path], listing.read_bytes(), DONE)
        memories.append(own_memory_of('index', path))
    grown, least = memories[1] - memories[0], 20 * (MANY - MANY // 4) // 1024
    if not least <= grown <= least + GROWTH:
        fault('memory of index', f'grows by {grown} KiB, not {least}')
    print(f'memory of index beside the mapping: {memories[0]} KiB for {MANY // 4} records, {memories[1]} for {MANY}')
    for position in *range(0, 120 * MANY, 120 * MANY // 19), END:
        must_find('long', [path], records, position)
        must_find('long, by a listing', [path, '--index', listing], records, position)


def run_all(folder):
    run_arguments(folder)
    run_inputs(folder)
    run_incomplete(folder)
    run_positions(folder)
    run_wrong_listings(folder)
    run_unfit_listings(folder)
    run_damaged_recordings(folder)
    run_long(folder)
