"""Streams aimed at what a writer is advised against, each with the lines that are due, by hand."""
import struct

from made import head, stream, tags, whole
from pages import CONTINUED, FIRST, LAST, NO_GRANULE

NAMES = 'REPLAYGAIN_TRACK_GAIN', 'REPLAYGAIN_TRACK_PEAK', 'REPLAYGAIN_ALBUM_GAIN', 'REPLAYGAIN_ALBUM_PEAK'
GAIN = b'REPLAYGAIN_TRACK_GAIN=-6.5 dB'

SHORT, LONG, MANY = b'\xe0', b'\xf8', b'\xe3\x05' + bytes(10)           # packets of 120, 960 and 600 samples
BEGIN, END = whole(0, 960, LONG), whole(LAST, 1920, LONG)
EMPTY = b'', b''
PIECE = b'\xff', LONG + bytes(254)                                      # the first 255 bytes of a packet
MORE = b'\xff', bytes(255)                                              # 255 bytes more of it
REST = b'\x05', bytes(5)                                                # and its end

# comments that are near misses
OTHERS = (b'REPLAYGAIN_TRACK_GAIN', b'REPLAYGAIN_TRACK_GAI=1', b'REPLAYGAIN_TRACK_GAINS=1', b'REPLAYGAIN_TRACK_GAIN =1',
          b' REPLAYGAIN_TRACK_GAIN=1', b'XREPLAYGAIN_TRACK_GAIN=1', b'REPLAYGAIN_TRACK=1', b'REPLAYGAIN_GAIN=1',
          b'REPLAYGAIN-TRACK-GAIN=1', b'REPLAYGAIN_ALBUM_RANGE=1', b'REPLAYGAIN_TRACK_PEEK=1', b'REPLAYGAIN_TRACKS_GAIN=1',
          b'REPLAYGAIN_REFERENCE_LOUDNESS=89', b'REPLAY_GAIN_TRACK_GAIN=1', b'R128_TRACK_GAIN=-573', b'R128_ALBUM_GAIN=0',
          b'TITLE=REPLAYGAIN_TRACK_GAIN=1', b'=REPLAYGAIN_TRACK_GAIN=1', b'=', b'')


def headers(*pages, comment=tags()):
    return stream([whole(FIRST, 0, head()), whole(0, 0, comment), *pages])


def long_headers(*pages, comments=()):
    """With a comment packet over the pages 1 to 3."""
    comment = tags(*comments, b'LONG=' + bytes(b'abcdefghij' * 50))
    return stream([whole(FIRST, 0, head()), (0, NO_GRANULE, b'\xff', comment[:255]),
                   (CONTINUED, NO_GRANULE, b'\xff', comment[255:510]), whole(CONTINUED, 0, comment[510:]), *pages])


def sized(text):
    return struct.pack('<I', len(text)) + text


def laced(*packets, more=(b'', b'')):
    """The lacing values and the body of a page of whole packets, and of one that goes on."""
    return whole(0, 0, *packets)[2] + more[0], b''.join(packets) + more[1]


def whole_streams():
    yield 'two pages', headers(BEGIN, END), ()
    yield 'one page', headers(whole(LAST, 960, LONG)), ()
    yield 'marked last and empty', headers(BEGIN, (LAST, NO_GRANULE, *EMPTY)), ()
    yield 'late', headers(whole(0, 10000, LONG), whole(LAST, 10960, LONG)), ()
    yield 'late and one page', headers(whole(LAST, 10000, LONG)), ()
    yield 'a long comment header', long_headers(BEGIN, END), ()
    yield 'a packet over pages', headers((0, NO_GRANULE, *PIECE), (CONTINUED, 960, *REST), END), ()
    yield 'a packet of 255 bytes over pages', headers(BEGIN, (0, NO_GRANULE, *PIECE), (CONTINUED | LAST, 1920, b'\0', b'')), ()


def unfinished_streams():
    last = LAST | CONTINUED
    yield 'unfinished', headers(BEGIN, (LAST, 1920, *laced(LONG, more=PIECE))), ('unfinished page 3',)
    yield 'unfinished and alone', headers((LAST, NO_GRANULE, *PIECE)), ('unfinished page 2',)
    yield 'unfinished and alone on its page', headers(BEGIN, (LAST, NO_GRANULE, *PIECE)), ('unfinished page 3',)
    yield 'unfinished over two pages', headers(BEGIN, (0, NO_GRANULE, *PIECE), (last, NO_GRANULE, *MORE)), ('unfinished page 4',)
    yield 'unfinished over many pages', headers(
        BEGIN, (0, 1920, *laced(LONG, more=PIECE)), *[(CONTINUED, NO_GRANULE, *MORE)] * 7, (last, NO_GRANULE, *MORE)), \
        ('unfinished page 11',)
    yield 'unfinished, and an empty page', headers(BEGIN, (0, NO_GRANULE, *PIECE), (last, NO_GRANULE, *EMPTY)), \
        ('unfinished page 4',)
    yield 'unfinished, and no packet', headers(BEGIN, (LAST, NO_GRANULE, b'\xff', b'\xff' * 255)), ('unfinished page 3',)
    yield 'unfinished after one over pages', headers(
        (0, NO_GRANULE, *PIECE), (CONTINUED, 960, REST[0] + PIECE[0], REST[1] + PIECE[1]), (last, NO_GRANULE, *MORE)), \
        ('unfinished page 4',)


def endless_streams():
    yield 'headers alone', headers(), ('no-end page 1',)
    yield 'long headers alone', long_headers(), ('no-end page 3',)
    yield 'one page, not marked', headers(BEGIN), ('no-end page 2',)
    yield 'an empty page, not marked', headers(BEGIN, (0, NO_GRANULE, *EMPTY)), ('no-end page 3',)
    yield 'many pages, not marked', headers(*(whole(0, 120 * n, SHORT) for n in range(1, 40))), ('no-end page 40',)


def trimmed_streams():
    """What is trimmed is just the last packet that completes, and one sample more; it may be all of the page."""
    for name, packets, samples, last in (
            ('two long packets', (LONG, LONG), 1920, 960), ('long and short', (LONG, SHORT), 1080, 120),
            ('short and long', (SHORT, LONG), 1080, 960), ('five frames', (LONG, MANY), 1560, 600),
            ('many short packets', (SHORT,) * 40, 4800, 120)):
        for trimmed, due in (0, ()), (last - 1, ()), (last, ()), (last + 1, ('trimmed page 3',)), (samples, ('trimmed page 3',)):
            yield f'{name}, {trimmed} trimmed', headers(BEGIN, whole(LAST, 960 + samples - trimmed, *packets)), due
    yield 'all of one packet', headers(BEGIN, whole(LAST, 960, LONG)), ()
    for trimmed, due in (120, ()), (121, ('trimmed page 2',)), (768, ('trimmed page 2',)):
        yield f'one page, {trimmed} trimmed', headers(whole(LAST, 1080 - trimmed, LONG, SHORT)), due
    for trimmed, due in (120, ()), (121, ('trimmed page 3',)):
        yield f'{trimmed} trimmed before an unfinished packet', \
            headers(BEGIN, (LAST, 2040 - trimmed, *laced(LONG, SHORT, more=PIECE))), ('unfinished page 3', *due)


def gain_streams():
    """A tag with one of the names is found once, wherever it is, and no other."""
    due = 'replaygain page 1',
    for name in NAMES:
        for text in name, name.lower(), name.title(), name[:11] + name[11:].lower(), name[:-1] + name[-1].lower():
            yield f'comment {text}', headers(BEGIN, END, comment=tags(b'A=1', f'{text}=1'.encode(), b'B')), due
    for text in GAIN, b'REPLAYGAIN_ALBUM_PEAK=', b'replaygain_track_peak==', b'REPLAYGAIN_ALBUM_GAIN=\xc3\xa9':
        yield f'comment {text}', headers(BEGIN, END, comment=tags(text)), due
    many = [b'N=%d' % number for number in range(300)]
    yield 'first of many comments', headers(BEGIN, END, comment=tags(GAIN, *many)), due
    yield 'last of many comments', headers(BEGIN, END, comment=tags(*many, GAIN)), due
    yield 'all names twice', headers(BEGIN, END, comment=tags(*(f'{name}=1'.encode() for name in 2 * NAMES))), due
    yield 'beside R128', headers(BEGIN, END, comment=tags(b'R128_TRACK_GAIN=5', GAIN, b'R128_ALBUM_GAIN=5')), due
    yield 'a comment on the first of three pages', long_headers(BEGIN, END, comments=[GAIN]), ('replaygain page 3',)
    yield 'a comment over pages', long_headers(BEGIN, END, comments=[b'A' * 215, GAIN]), ('replaygain page 3',)
    for text in OTHERS:
        yield f'comment {text}', headers(BEGIN, END, comment=tags(text)), ()
    yield 'all of these', headers(BEGIN, END, comment=tags(*OTHERS)), ()
    yield 'the vendor', headers(BEGIN, END, comment=b'OpusTags' + sized(GAIN) + sized(b'')), ()
    yield 'after the comments', headers(BEGIN, END, comment=tags(b'A=1') + sized(GAIN)), ()
    yield 'in a packet', headers(whole(LAST, 960, LONG + GAIN)), ()


def hole_streams():
    yield 'one sample', headers(BEGIN, whole(0, 1921, LONG), whole(LAST, 2881, LONG)), ('hole page 3',)
    yield 'none, and one sample at the end', headers(BEGIN, whole(LAST, 1921, LONG)), ('hole page 3',)
    yield 'a great hole', headers(BEGIN, whole(0, 2**62, LONG), whole(LAST, 2**62 + 960, LONG)), ('hole page 3',)
    yield 'on several pages', headers(BEGIN, whole(0, 2000, LONG), whole(0, 2120, SHORT), whole(0, 2300, SHORT),
                                      whole(LAST, 2421, SHORT)), ('hole page 3', 'hole page 5', 'hole page 6')
    yield 'after an empty page', headers(BEGIN, (0, NO_GRANULE, *EMPTY), whole(LAST, 2000, LONG)), ('hole page 4',)
    yield 'before a packet over pages', headers(BEGIN, (0, NO_GRANULE, *PIECE), (CONTINUED, NO_GRANULE, *MORE),
                                                (CONTINUED, 2000, *REST), whole(LAST, 2960, LONG)), ('hole page 5',)
    yield 'late, and a hole', headers(whole(0, 10000, LONG), whole(LAST, 10961, LONG)), ('hole page 3',)


def mixed_streams():
    yield 'headers with a gain', headers(comment=tags(GAIN)), ('no-end page 1', 'replaygain page 1')
    yield 'long headers with a gain', long_headers(comments=[GAIN]), ('no-end page 3', 'replaygain page 3')
    yield 'unfinished, not marked', headers(BEGIN, (0, 1920, *laced(LONG, more=PIECE))), ('unfinished page 3', 'no-end page 3')
    yield 'a hole, not marked', headers(BEGIN, whole(0, 2000, LONG)), ('no-end page 3', 'hole page 3')
    yield 'a hole, and more trimmed', headers(BEGIN, whole(0, 2000, LONG), whole(LAST, 2001, LONG, LONG)), \
        ('hole page 3', 'trimmed page 4')
    yield 'all but trimmed', long_headers(BEGIN, whole(0, 2000, LONG), (0, 3000, *laced(LONG, more=PIECE)), comments=[GAIN]), \
        ('replaygain page 3', 'hole page 5', 'unfinished page 6', 'no-end page 6', 'hole page 6')
    yield 'all but the end mark', headers(BEGIN, whole(0, 2000, LONG), (LAST, 2000, *laced(LONG, SHORT, more=PIECE)),
                                          comment=tags(GAIN)), \
        ('replaygain page 1', 'hole page 3', 'unfinished page 4', 'trimmed page 4')


def examples():
    """(name, bytes, the lines of the findings) of each."""
    for some in (whole_streams, unfinished_streams, endless_streams, trimmed_streams, gain_streams, hole_streams,
                 mixed_streams):
        yield from some()
