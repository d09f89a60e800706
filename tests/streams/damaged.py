"""Streams with damage, for the tests of the programs: a bit changed, cut off, pages moved, streams joined, and several
damages at random."""
from made import short_stream, wrong_ambisonic_streams, wrong_streams, wrong_version_streams
from pages import Refused, checksum, cut, read_page, write_page
from programs import ROOT


def flipped(data, places):
    """One bit of one byte changed, the checksum left as it was."""
    for place in places:
        yield f'bit {place % 8} of byte {place} changed', \
            data[:place] + bytes([data[place] ^ 1 << place % 8]) + data[place + 1:]


def renewed(data):
    """One bit of a page changed and the page's checksum made again, so that later checks judge it: each bit before the
    body, and some in the body."""
    pages = cut(data)
    for number, page in enumerate(pages):
        body = 8 * (27 + page[26])
        for bit in [*range(body), *range(body, 8 * len(page), 23)]:
            changed = bytearray(page)
            changed[bit // 8] ^= 1 << bit % 8
            changed[22:26] = bytes(4)
            changed[22:26] = checksum(bytes(changed)).to_bytes(4, 'little')
            yield f'bit {bit} of page {number} changed, checksum made again', \
                b''.join(pages[:number] + [bytes(changed)] + pages[number + 1:])


def cut_off(data, places):
    for place in places:
        yield f'cut at byte {place}', data[:place]


def pages_moved(data):
    pages = cut(data)
    for i in range(len(pages)):
        yield f'page {i} missing', b''.join(pages[:i] + pages[i + 1:])
        yield f'page {i} twice', b''.join(pages[:i + 1] + pages[i:])
        yield f'pages {i} and next exchanged', b''.join(pages[:i] + pages[i:i + 2][::-1] + pages[i + 2:])
        yield f'bytes between pages, before {i}', b''.join(pages[:i] + [b'drip'] + pages[i:])


def joined(data, other):
    """Two streams one after the other, the first also without its last pages."""
    for left in range(3):
        first = b''.join(cut(data)[:len(cut(data)) - left])
        yield f'joined with itself, {left} pages left out', first + data
        yield f'joined with another serial, {left} pages left out', first + other
        yield f'joined with text, {left} pages left out', first + b'some text\n'


def groups():
    """Pairs of a good stream and the damaged ones that begin like it; None where a damage may change earlier lines."""
    short, other = short_stream(), short_stream(serial=1)
    long = (ROOT / 'examples/drip.opus').read_bytes()
    yield short, [('good', short), ('empty', b''), ('one byte', short[:1]), ('text', b'This is no recording.\n' * 100)]
    yield short, flipped(short, range(len(short)))
    yield short, cut_off(short, range(len(short)))
    yield short, pages_moved(short)
    yield short, joined(short, other)
    yield None, renewed(short)
    yield None, wrong_streams()
    yield None, wrong_version_streams()
    yield None, wrong_ambisonic_streams()
    yield long, [('good, from examples', long)]
    yield long, flipped(long, range(0, len(long), 211))
    yield long, cut_off(long, range(0, len(long), 223))
    yield long, pages_moved(long)
    yield long, joined(long, short)


# ---- damages at random, each to the page at a place of a list of pages

def lose(pages, at, random):
    pages[at] = b''


def double(pages, at, random):
    pages[at] *= 2


def exchange(pages, at, random):
    other = random.randrange(at, len(pages))
    pages[at], pages[other] = pages[other], pages[at]


def change(pages, at, random):
    """Some bytes one after the other."""
    start, count = random.randrange(len(pages[at]) + 1), random.choice([1, 1, 16, 512])
    rest = pages[at][start:]
    pages[at] = pages[at][:start] + random.randbytes(min(count, len(rest))) + rest[count:]


def shorten(pages, at, random):
    pages[at] = pages[at][:random.randrange(len(pages[at]) + 1)]


def put_noise(pages, at, random):
    pages[at] = random.choice([b'', b'OggS', b'OggS\0', pages[at][:27]]) + random.randbytes(random.randrange(600)) + pages[at]


def put_stranger(pages, at, random):
    """A page of another stream."""
    try:
        pages[at] += write_page(read_page(pages[at])._replace(serial=random.getrandbits(32)))
    except Refused:
        put_noise(pages, at, random)


def damaged_at_random(data, random, spared, most=8):
    """A stream with a few damages, its first pages spared."""
    pages = cut(data)
    for _ in range(random.randint(1, most)):
        one = random.choice([lose, double, exchange, change, shorten, put_noise, put_stranger])
        one(pages, random.randrange(spared, len(pages)), random)
    return b''.join(pages)
