"""Streams made by hand for the tests, with packets of few bytes and pages of many forms."""
import struct

from pages import CONTINUED, FIRST, LAST, NO_GRANULE, Page, lacing_of, write_page

SERIAL = 0x31415926
TOCS = {120: 0xe0, 240: 0xe8, 480: 0xf0, 960: 0xf8, 1920: 0x10, 2880: 0x18}     # first bytes by the samples of a frame


def head(channels=2, family=0, table=b'', version=1):
    return b'OpusHead' + struct.pack('<BBHIhB', version, channels, 312, 48000, 0, family) + table


def tags(*comments):
    texts = (b'made', *comments)
    parts = [struct.pack('<I', len(text)) + text for text in texts]
    return b'OpusTags' + parts[0] + struct.pack('<I', len(comments)) + b''.join(parts[1:])


def stream(pages, serial=SERIAL):
    """The bytes of pages, given as (flags, granule, lacing, body), numbered from 0."""
    return b''.join(write_page(Page(flags, granule, serial, number, lacing, body))
                    for number, (flags, granule, lacing, body) in enumerate(pages))


def whole(flags, granule, *packets):
    """A page of whole packets."""
    return flags, granule, b''.join(map(lacing_of, packets)), b''.join(packets)


def short_stream(serial=SERIAL, first=head()):
    """Under 2 KB: a comment packet over two pages, an audio packet over three, an empty page, a hole, and a trim."""
    comment = tags(b'TITLE=drip', b'LONG=' + bytes(b'abcdefghij' * 27))
    long = bytes([0xf8]) + bytes(range(256)) * 2 + bytes(27)            # 540 bytes, 960 samples
    two, silk, many = b'\x01ab', b'\x08abc', b'\xe3\x05' + bytes(10)    # 960, 960 and 600 samples
    return stream([
        whole(FIRST, 0, first),
        (0, NO_GRANULE, b'\xff', comment[:255]),
        whole(CONTINUED, 0, comment[255:]),
        whole(0, 2520, two, silk, many),
        (0, NO_GRANULE, b'', b''),
        (0, 3480, b'\x03\xff', two + long[:255]),
        (CONTINUED, NO_GRANULE, b'\xff', long[255:510]),
        (CONTINUED, 4440 + 100, b'\x1e', long[510:]),                   # 100 samples missing before this page
        whole(LAST, 4540 + 700, two, silk)], serial)


def long_stream(packets):
    """Packets of 2.5 ms and one byte, 255 on a page."""
    pages = [whole(FIRST, 0, head()), whole(0, 0, tags())]
    for at in range(0, packets, 255):
        count = min(255, packets - at)
        pages.append((0, 120 * (at + count), b'\x01' * count, b'\xe0' * count))
    return stream(pages)


def pages_stream(pages):
    """Packets of 2.5 ms and one byte, one on a page; the last of several pages is marked last, and trimmed whole."""
    audio = [whole(0, 120 * number, b'\xe0') for number in range(1, pages + 1)]
    if pages > 1:
        audio[-1] = whole(LAST, 120 * (pages - 1), b'\xe0')
    return stream([whole(FIRST, 0, head()), whole(0, 0, tags()), *audio])


def constant(frame, count, size, delimited):
    """An Opus packet of code 3: frames of so many samples, their count, and the bytes of each."""
    return bytes([TOCS[frame] | 3, count]) + bytes([size] * delimited) + bytes(size * count)


def frames_stream(streams):
    """A stream of packets of any number of frames, and these numbers. Packets of one length in other frames follow each
    other, and of several streams the second has other frames than the first where the length allows it."""
    lengths = [*range(120, 5761, 120), *[960, 5760, 960, 1920, 2880] * 4]
    packets, samples, frames = [], [], []
    for length in lengths:
        ways = [(frame, length // frame) for frame in TOCS if length % frame == 0]
        for i, (frame, count) in enumerate(ways):
            others = [constant(*ways[(i - k) % len(ways)], k % 3, k < streams - 1) for k in range(1, streams)]
            packets.append(constant(frame, count, i % 3, streams > 1) + b''.join(others))
            samples.append(length)
            frames.append(count)
    table = bytes([streams, 0, *range(streams)])
    pages = [whole(FIRST, 0, head(streams, 255, table)), whole(0, 0, tags())]
    for at in range(0, len(packets), 50):
        last = at + 50 >= len(packets)
        granule = sum(samples[:at + 50]) - 1000 * last
        pages.append(whole(LAST * last, granule, *packets[at:at + 50]))
    return stream(pages), frames


def version_streams():
    """(version, bytes, bytes in version 1) of the short stream with headers that are read. From version 2 on bytes may
    follow the fields; with 236 the header of family 0 is 255 bytes long."""
    matrix = bytes([1, 1]) + struct.pack('<6h', 16384, -16384, 0, 1, 32767, -32768)
    for fields in (2,), (1, 255, bytes([1, 0, 255])), (3, 2, bytes([1, 1, 0, 255, 1])), (3, 3, matrix):
        same = short_stream(first=head(*fields))
        for version, sizes in (0, [0]), (2, [0, 1, 236]), (15, [0, 10, 3000]):
            for size in sizes:
                first = head(*fields, version=version) + b'\xff' * size
                yield version, short_stream(first=first), same


def wrong_version_streams():
    """(name, bytes) of the short stream with headers that are refused for their version, or for their length in it."""
    for version, more in (0, 1), (1, 1), (16, 0), (16, 10), (255, 0), (0, -1), (2, -1), (15, -1):
        first = head(version=version).ljust(19 + more, b'\0')[:19 + more]
        yield f'version {version}, {len(first)} bytes', short_stream(first=first)
    first, second = head(version=2), whole(0, 0, tags())
    yield 'version 2 and another packet', stream([whole(FIRST, 0, first, b'more'), second])
    yield 'version 2 over two pages', stream([(FIRST, NO_GRANULE, b'\xff', first.ljust(255, b'\0')),
                                              whole(CONTINUED, 0, b'more'), second])


def ambisonic_streams():
    """(name, bytes, the line that `tags` prints of the table) of streams of families 2 and 3: headers of few channels
    and of many, up to the longest."""
    for channels, streams, coupled in (1, 1, 0), (3, 1, 1), (4, 3, 1), (6, 5, 1), (227, 128, 127):
        indices = [(7 * i) % (streams + coupled) if i % 5 else 255 for i in range(channels)]
        first = head(channels, 2, bytes([streams, coupled, *indices]))
        line = f'mapping {" ".join(map(str, indices))}'
        yield f'family 2, {channels} channels', streams_stream(first, streams), line
    for channels, streams, coupled in (1, 1, 0), (3, 1, 1), (4, 2, 2), (11, 6, 5), (198, 155, 0), (198, 78, 77):
        count = (streams + coupled) * channels
        entries = [0, 1, -1, 32767, -32768, 256, -256, 128, *(i * 40503 % 65536 - 32768 for i in range(count))][:count]
        table = bytes([streams, coupled]) + struct.pack(f'<{count}h', *entries)
        for version, more in (0, 0), (1, 0), (2, 0), (2, 39), (15, 2):
            yield (f'family 3, {channels} channels, version {version}, {more} bytes more',
                   streams_stream(head(channels, 3, table, version) + b'\xee' * more, streams),
                   f'matrix {" ".join(map(str, entries))}')


def streams_stream(first, streams):
    """A stream of this header, with two packets of 960 samples in each of so many streams."""
    packet = constant(960, 1, 1, True) * (streams - 1) + constant(960, 1, 1, False)
    return stream([whole(FIRST, 0, first), whole(0, 0, tags(b'TITLE=round')), whole(0, 960, packet),
                   whole(LAST, 1900, packet)])


def wrong_ambisonic_streams():
    """(name, bytes) of streams of families 2 and 3 that are refused for their first header."""
    for channels in 0, 2, 5, 7, 224, 226, 228, 255:
        for family, size in (2, channels), (3, 10 * channels):
            first = head(channels, family, bytes([3, 2]) + bytes(size))
            yield f'family {family}, {channels} channels', streams_stream(first, 3)
    yield 'family 2, an index too high', streams_stream(head(4, 2, bytes([2, 2, 0, 1, 2, 4])), 2)
    yield 'family 4', streams_stream(head(4, 4, bytes([2, 2, 0, 1, 2, 3])), 2)
    for streams, coupled in (0, 0), (0, 1), (1, 2), (128, 128), (255, 255):
        size = 2 * (streams + coupled) * 4
        for more in -1, 0, 1:
            first = (head(4, 3, bytes([streams, coupled])) + bytes(size + 1))[:21 + size + more]
            yield f'family 3, {streams} and {coupled} streams, {len(first)} bytes', streams_stream(first, 1)
    for version in 1, 2:
        for size in 19, 20, 21, 52, *([54] if version == 1 else []):
            first = (head(4, 3, bytes([2, 2]), version) + bytes(100))[:size]
            yield f'family 3, version {version}, {size} bytes for 53', streams_stream(first, 2)
        for size in 61440, 61441, 61765:
            first = (head(227, 3, bytes([136, 0]), version) + bytes(62000))[:size]
            yield f'family 3, version {version}, {size} bytes for 61,765', streams_stream(first, 136)
    longest = head(198, 3, bytes([155, 0]) + bytes(2 * 155 * 198), 2)
    yield 'family 3, version 2, 40 bytes more than the longest', streams_stream(longest + bytes(40), 155)


def wrong_streams():
    """(name, bytes) of streams that are refused by numbers that damage to the short stream does not lead to."""
    first, second = whole(FIRST, 0, head()), whole(0, 0, tags())
    yield 'comment packet of 61,441 bytes', stream([first, whole(0, 0, tags().ljust(61441, b'\0'))])
    yield 'two packets on the page of the comment header', stream([first, whole(0, 0, tags(), b'x')])
    yield 'nine channels in family 1', stream([whole(FIRST, 0, head(9, 1, bytes([9, 0, *range(9)])))])
    yield 'a packet of 960 and 480 samples', stream([whole(FIRST, 0, head(2, 1, bytes([2, 0, 0, 1]))), second,
                                                     whole(LAST, 960, b'\x08\x01a' + b'\x00b')])
    yield 'an empty packet', stream([first, second, whole(LAST, 960, b'\x08a', b'')])
    yield 'the only page of audio ends below the pre-skip', stream([first, second, whole(LAST, 311, b'\x08a')])
