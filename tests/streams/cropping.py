"""Runs of `embulgri crop`, held to crop.py: what is said, what is written, how it is listed, and that nothing else is
written."""
import itertools
import os
import resource
import threading

import refusals
from crop import END, stream_of
from index import text
from listing import listing, read
from made import head, pages_stream, short_stream, stream, tags, whole
from pages import CONTINUED, FIRST, LAST, NO_GRANULE, cut
from programs import ROOT
from repage import repage
from runs import DONE, REFUSED, TROUBLE, counts, fault, must, refusal_due, run
from salvaging import OLD, files_of, limited
from salvaging import streams as good_streams
from seeking import WRONG_POSITIONS

EVERY = 4                               # of the streams of tests/program so many share one that is cropped
MANY = 10000                            # pages of a long stream
seen = set()                            # crops whose listing has been looked at


def due(data, at):
    """What is written, None if nothing is, and printed, the status, and what is said of a crop at a page, ('3',), or at a
    position, ('--at', '2520')."""
    cropped = stream_of(data)
    if cropped.refusal:
        return None, text(cropped.refusal), REFUSED, refusal_due(cropped.refusal, data)
    *option, number = at
    start = cropped.start(END, int(number)) if option else cropped.start(int(number), END)
    if start is None or not option and start.page != int(number):
        return None, b'refused 29\n', REFUSED, f': the crop is refused by 29: {refusals.meaning(29)}\n'.encode()
    said = f': the crop begins with page {start.page}; its first packet starts at position {start.position}\n'
    return cropped.crop(start.page), b'', DONE, said.encode()


def must_crop(name, data, words, at, out, **options):
    """A crop to the file `out` of a folder that has no other file; `at` is put among the words. Every other one finds the
    file there before."""
    name, target = f'crop {" ".join(at)}, {name}', out / 'out'
    bytes_due, *rest = due(data, at)
    counts['crops' if bytes_due else 'crops refused'] += 1
    before = {'out': OLD} if counts['runs'] % 2 else {}
    target.unlink(missing_ok=True)
    for file, old in before.items():
        (out / file).write_bytes(old)
    must(name, ['crop', *words[:1], *at, *words[1:]], *rest, **options)
    found = files_of(out)
    if found != (before if bytes_due is None else {'out': bytes_due}):
        fault(name, f'leaves {[(file, len(left)) for file, left in found.items()]}')
    return bytes_due


def columns(printed):
    """The end, the length and the frames of each packet that is listed."""
    return [line.split()[:3] for line in printed.splitlines()[1:-1]]


def must_keep(name, bytes_due, path, out):
    """A crop is listed whole, and its packets, the last ones of the stream, as they are in the stream."""
    if bytes_due is None or bytes_due in seen:
        return
    seen.add(bytes_due)
    must(f'list, {name}', ['list', out / 'out'], listing(*read(bytes_due)), DONE)
    cropped, all_lines = run(name, 'list', out / 'out'), run(name, 'list', path)
    if not cropped or not all_lines or not columns(cropped[0]):
        fault(name, 'is not listed')
    elif columns(cropped[0]) != columns(all_lines[0])[-len(columns(cropped[0])):]:
        fault(name, 'is listed with other ends, lengths or frames')


def compare(name, data, path, number, out):
    """On a stream in a file, at a place that goes by a number; on one of several streams."""
    if number % EVERY == 0:
        numbers = ('2',), ('3',), ('5',), ('--at', '0'), ('--at', '2520'), ('--at', '100000'), ('--at', str(END))
        must_crop(name, data, [path, out / 'out'], numbers[number // EVERY % len(numbers)], out)


# ---- streams

def headers(*pages):
    return stream([whole(FIRST, 0, head()), whole(0, 0, tags()), *pages])


def streams():
    """(name, bytes) of good streams: also some that start late, and some where a crop begins nowhere or is the stream."""
    drip, packet = (ROOT / 'examples/drip.opus').read_bytes(), b'\xe0' + bytes(300)
    yield from ((name, data) for name, data, _ in good_streams())
    yield 'late', repage(short_stream(), 3, 10000)
    yield 'late drip', repage(drip, 90, 2**40, 5000, 700)
    yield 'headers alone', headers()
    yield 'one page of audio', headers(whole(0, 120, b'\xe0'))
    yield 'one page of audio, marked last', headers(whole(LAST, 400, b'\xe0'))
    yield 'one page of audio, late', headers(whole(0, 2**63 - 1, b'\xe0', b'\xe0'))
    yield 'no page of audio that begins with a packet', headers(
        (0, NO_GRANULE, b'\xff', packet[:255]), (CONTINUED, 120, b'\x2e\xff', packet[255:] + packet[:255]),
        (CONTINUED, 240, b'\x2e', packet[255:]), (0, NO_GRANULE, b'', b''), whole(LAST, 300, b'\xe0'))


def places(data):
    """Every page and some past the last one; and positions about the start of each packet that a crop may begin with."""
    pages = [*range(len(cut(data)) + 2), 2**32, 2**32 + 3, 2**63, END]
    about = {max(start.position + step, 0) for start in stream_of(data).starts for step in (-1, 0, 1)}
    return [(str(page),) for page in pages] + [('--at', str(position)) for position in sorted(about | {0, 2**63, END})]


def run_places(folder, out):
    path = folder / 'cropped.opus'
    for name, data in streams():
        path.write_bytes(data)
        for at in places(data):
            bytes_due = must_crop(name, data, [path, out / 'out'], at, out)
            must_keep(f'crop {" ".join(at)}, {name}', bytes_due, path, out)
            if bytes_due is not None and at == (str(stream_of(data).headers),) and bytes_due != data:
                fault(name, 'cropped at its first page of audio is another stream')


def run_again(folder, out):
    """A crop cropped is the crop at the later page."""
    data, path = (ROOT / 'examples/drip.opus').read_bytes(), folder / 'cropped.opus'
    path.write_bytes(stream_of(data).crop(4))
    if must_crop('a crop', path.read_bytes(), [path, out / 'out'], ('3',), out) != stream_of(data).crop(5):
        fault('crop of a crop', 'is not the crop of the whole')


def run_incomplete(folder, out):
    """A stream without its last pages, down to none, and with or without the last byte before them."""
    path, ends = folder / 'cropped.opus', [0, *itertools.accumulate(map(len, cut(short_stream())))]
    for size in sorted({max(end - less, 0) for end in ends for less in (0, 1)}):
        data = short_stream()[:size]
        path.write_bytes(data)
        for at in ('3',), ('--at', '2520'):
            must_crop(f'{size} bytes', data, [path, out / 'out'], at, out)


# ---- files

def recording(folder):
    """A file with a stream, and its bytes."""
    path = folder / 'cropped.opus'
    path.write_bytes(short_stream())
    return path, short_stream()


def run_inputs(folder, out):
    """Input from a pipe, a named pipe and another place of a file; names of any bytes; the option at any place."""
    path, data = recording(folder)
    target, at = out / 'out', ('--at', '2600')
    for place in at, ('5',):
        must_crop('from a pipe', data, ['-', target], place, out, input=data)
        must_crop('empty', b'', ['/dev/null', target], place, out)
    os.mkfifo(folder / 'cropped.pipe')
    writer = threading.Thread(target=(folder / 'cropped.pipe').write_bytes, args=(data,))
    writer.start()
    must_crop('from a named pipe', data, [folder / 'cropped.pipe', target], at, out)
    writer.join()
    with open(folder / 'joined', 'w+b') as file:
        file.write(b'drip' * 2000 + data)
        file.seek(8000)
        must_crop('after 8000 bytes of standard input', data, ['-', target], at, out, stdin=file)
    for words in [path, target, *at], [*at, path, target], [*at, '--', path, target], ['--', path, '5', target]:
        (out / 'out').unlink(missing_ok=True)
        must(f'crop {words}', ['crop', *words], *due(data, at)[1:])
        if files_of(out) != {'out': due(data, at)[0]}:
            fault(f'crop {words}', f'leaves {[*files_of(out)]}')
    for name in b'two words', b'\xff\xfe', b'line\nfeed', b'--at', b'-x':
        os.rename(path, os.fsencode(folder) + b'/' + name)
        must(f'crop from {name}', ['crop', *at, '--', name, target], *due(data, at)[1:], cwd=folder)
        os.rename(os.fsencode(folder) + b'/' + name, path)
        must(f'crop to {name}', ['crop', '--', path, '5', name], *due(data, at)[1:], cwd=out)
        target.unlink()
        os.rename(os.fsencode(out) + b'/' + name, target)
        if files_of(out) != {'out': due(data, at)[0]}:
            fault(f'crop to {name}', f'leaves {[*files_of(out)]}')


def run_long(folder, out):
    """A long stream, of which much and little is kept."""
    path, data = folder / 'cropped.opus', pages_stream(MANY)
    path.write_bytes(data)
    for at in ('3',), (str(MANY),), ('--at', str(120 * MANY - 500)):
        must_crop('long', data, [path, out / 'out'], at, out)


# ---- trouble

def must_leave(name, words, message, out, **options):
    """A crop that is in trouble, and leaves a folder as it was."""
    before = files_of(out)
    must(f'crop, {name}', ['crop', *words], b'', TROUBLE, message, **options)
    if files_of(out) != before:
        fault(f'crop, {name}', f'leaves {[*files_of(out)]}')
    counts['crops in trouble'] += 1


def run_one_file(folder, out):
    """The input and the output are one file, by one name or by several."""
    target = out / 'out'
    target.write_bytes(short_stream())
    (out / 'hard').hardlink_to(target)
    (out / 'soft').symlink_to(target)
    for at in ['5'], ['0'], ['--at', '2600']:
        for one, other in (target, target), (target, out / 'hard'), (out / 'soft', target), (out / 'hard', out / 'soft'):
            must_leave(f'{one} and {other}', [one, *at, other], b' are one file', out)
        with open(target, 'rb') as file:
            must_leave(f'standard input and {target}', ['-', *at, target], b' are one file', out, stdin=file)
    (out / 'hard').unlink()
    (out / 'soft').unlink()


def run_trouble(folder, out):
    """Files that cannot be read or written: a file that was there stays."""
    path, data = recording(folder)
    target = out / 'out'
    target.write_bytes(OLD)
    (out / 'directory').mkdir()
    os.mkfifo(out / 'pipe')
    for wrong in folder, folder / 'missing', '', '/proc/self/mem':
        must_leave(f'from {wrong}', [wrong, '5', target], b'cannot read', out)
        must_leave(f'from {wrong} to nothing', [wrong, '--at', '5', out / 'new'], b'cannot read', out)
    must_leave('no standard input', ['-', '5', target], b'cannot read', out, preexec_fn=lambda: os.close(0))
    for wrong in (out / 'directory', f'{out}/directory/', f'{out}/new/', '', '.', out / 'missing/out', target / 'out',
                  out / 'pipe', '/dev/full'):
        must_leave(f'to {wrong!r}', [path, '5', wrong], b'cannot write', out, cwd=out)
    for size in 0, 1, 500, len(stream_of(data).crop(5)) - 1:
        for name in target, out / 'new':
            must_leave(f'full after {size} bytes', [path, '--at', '2600', name], b'cannot write', out,
                       **limited(resource.RLIMIT_FSIZE, size))
    with open(folder / 'zeros', 'wb') as file:
        file.truncate(1 << 26)
    must_leave('no memory', [folder / 'zeros', '5', target], b'no memory', out, **limited(resource.RLIMIT_AS, 1 << 27))
    (out / 'directory').rmdir()
    (out / 'pipe').unlink()


def run_arguments(folder, out):
    """Words that are wrong, too few or too many; and what help says of the input."""
    path, data = recording(folder)
    target = out / 'out'
    target.write_bytes(OLD)
    for wrong in WRONG_POSITIONS:
        must_leave(f'page {wrong!r}', ['--', path, wrong, target], b' is no page, ', out)
        must_leave(f'position {wrong!r}', [path, '--at', wrong, target], b' is no position, ', out)
    for words in ([], [path], [path, '5'], [path, target], [path, '5', target, target], [path, target, '5'], [path, '5', '-'],
                  [path, '-', '--at', '5'], ['-', '-', '--at', '5'], ['--at', '5'], [path, '--at', '5'], [path, target, '--at'],
                  [path, '5', target, '--at', '5'], [path, target, '--at', '5', '--at', '5'], [path, target, '--at=5'],
                  [path, '5', target, '-x'], ['-x', path, '5', target], [path, '5', target, '--index', path]):
        must_leave(f'arguments {words}', words, b'see embulgri ', out, input=data)
    for words in ['list', path, '--at', '5'], ['salvage', path, target, '--at', '5'], ['seek', path, '5', '--at', '5']:
        must(f'arguments {words}', words, b'', TROUBLE, b'unknown option')
    for words in ['--help'], ['crop', '--help']:
        done = run('help', *words)
        if not done or b'must not change' not in done[0] or b'embulgri crop IN --at POSITION OUT' not in done[0]:
            fault(f'{words}', 'does not say enough of crop')


def run_closed(folder, out):
    """A folder in which nothing can be made, which root can all the same: then it is another user's run."""
    path, _ = recording(folder)
    (out / 'out').write_bytes(OLD)
    out.chmod(0o555)
    options = {'user': 65534, 'group': 65534, 'extra_groups': []} if os.getuid() == 0 else {}
    try:
        for name in out / 'out', out / 'new':
            must_leave('to a closed folder', [path, '5', name], b'Permission denied', out, **options)
    except PermissionError:
        print('another user cannot run the program: no closed folder was tried')
    out.chmod(0o755)


def run_unprinted(folder, out):
    """Standard output fails: a crop prints nothing, and is made all the same; a refusal is not told, and makes nothing."""
    path, data = recording(folder)
    with open('/dev/full', 'wb') as full:
        for options in {'stdout': full}, {'preexec_fn': lambda: os.close(1)}:
            (out / 'out').write_bytes(OLD)
            for at in ['0'], ['99'], ['4']:
                must_leave('no output', [path, *at, out / 'out'], b'cannot write', out, **options)
            must_crop('no output', data, [path, out / 'out'], ('5',), out, **options)


def run_all(folder, out):
    run_arguments(folder, out)
    run_places(folder, out)
    run_again(folder, out)
    run_incomplete(folder, out)
    run_inputs(folder, out)
    run_long(folder, out)
    run_one_file(folder, out)
    run_trouble(folder, out)
    run_closed(folder, out)
    run_unprinted(folder, out)
