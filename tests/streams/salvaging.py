"""Runs of `embulgri salvage`, held to salvage.py: what is printed and said, what is saved, and that nothing else is written."""
import functools
import os
import resource
import threading
from random import Random

from damaged import damaged_at_random
from listing import listing, read
from made import SERIAL, frames_stream, head, pages_stream, short_stream, stream, tags, whole
from pages import FIRST, cut, read_page, write_page
from programs import ROOT
from repage import paged, pieces
from runs import DONE, REFUSED, TROUBLE, counts, fault, must, refusal_due
from salvage import good_pages, of_stream, salvage, settle
from salvage_examples import examples
from stopped import own_memory_of

SEED = 20261117
TIMES = 40                              # how often each stream is damaged at random
MANY, LONG = 10000, 1 << 26            # pages and bytes of a long input
MOST_MEMORY = 4096                      # KiB that its salvage takes, half of it one large page of the output
OLD = b'what was there before\n'
seen = set()                            # what was saved, and has been looked at


@functools.cache
def counted(saved):
    """The pages of what was saved, and the samples of its holes."""
    reader, _ = read(saved)
    return reader.pages, reader.hole


def lost_of(data):
    """How many pages are missing between the kept ones, by the numbers that these had."""
    numbers = [good.page.sequence for good in settle(of_stream(good_pages(data)))[0]]
    steps = [(number - last - 1) % 2**32 for last, number in zip(numbers, numbers[1:])]
    return sum(step for step in steps if step < 2**31)


def counted_of(count, one, many):
    return f'{count} {one if count == 1 else many}'


def summary(data, saved, printed):
    """What is said of a salvage that prints this."""
    pages, hole = counted(saved)
    if not printed:
        return f': all {pages} pages are whole; nothing was changed\n'.encode()
    lines = [line.split() for line in printed.decode().splitlines()]
    skips = [int(size) for what, _, size in lines if what == 'skip']
    cuts = sum(what == 'cut' for what, _, _ in lines)
    return (f': {pages} pages kept, by their numbers {lost_of(data)} lost; {counted_of(sum(skips), "byte", "bytes")} skipped, '
            f'in {counted_of(len(skips), "run", "runs")}; '
            f'{counted_of(cuts, "piece of a packet", "pieces of packets")} removed; '
            f'by its granule positions {hole // 48000}.{hole % 48000 // 48:03} seconds of sound are missing\n').encode()


def files_of(folder):
    """The files of a folder with their bytes; None for what is no file."""
    return {path.name: path.read_bytes() if path.is_file() else None for path in folder.iterdir()}


def must_save(name, words, data, folder, **options):
    """A salvage to the file `out` of a folder that has no other file. Every other one finds it there before."""
    saved, printed = salvage(data)
    counts['salvages'] += 1
    before = {'out': OLD} if counts['salvages'] % 2 else {}
    (folder / 'out').unlink(missing_ok=True)
    for file, text in before.items():
        (folder / file).write_bytes(text)
    if saved is None:
        must(f'salvage, {name}', ['salvage', *words], printed, REFUSED, refusal_due('refused 24', data), **options)
    else:
        must(f'salvage, {name}', ['salvage', *words], printed, DONE, summary(data, saved, printed), **options)
    found = files_of(folder)
    if found != (before if saved is None else {'out': saved}):
        fault(f'salvage, {name}', f'leaves {[(file, len(text)) for file, text in found.items()]}')
    return saved


def must_stay(name, saved, path, folder):
    """What was saved is listed whole, and salvage changes nothing in it."""
    path.write_bytes(saved)
    reader, last = read(saved)
    must(f'list, saved of {name}', ['list', path], listing(reader, last), DONE)
    if salvage(saved) != (saved, b'') or not last.startswith('total '):
        fault(f'saved of {name}', 'is not saved as it is')
    must_save(f'saved of {name}', [path, folder / 'out'], saved, folder)


def compare(name, data, path, folder):
    """On a stream in a file."""
    saved = must_save(name, [path, folder / 'out'], data, folder)
    if saved is not None and saved not in seen:
        seen.add(saved)
        must_stay(name, saved, path.with_suffix('.saved'), folder)
    counts['salvage refused' if saved is None else 'salvage same' if saved == data else 'salvage changed'] += 1


# ---- streams

def over_pages(values):
    """A stream of packets of up to 1,261 bytes, on pages of so many lacing values."""
    all_pieces = [piece for number in range(1, 22) for piece in pieces(b'\xe0' + bytes(63 * number - 63), 120 * number)]
    headers = stream([whole(FIRST, 0, head()), whole(0, 0, tags())])
    return headers + b''.join(map(write_page, paged(all_pieces, values, SERIAL, 2)))


def streams():
    """(name, bytes, number of header pages) of good streams."""
    drip = (ROOT / 'examples/drip.opus').read_bytes()
    yield 'short', short_stream(), 3
    yield 'drip', drip, 2
    yield 'one packet a page', pages_stream(40), 2
    yield 'every number of frames', frames_stream(2)[0], 2
    for values in 1, 2, 3, 5:
        yield f'long packets by {values}', over_pages(values), 2


def renumbered(data, first):
    """A stream whose pages are numbered from another number on."""
    pages = [read_page(part) for part in cut(data)]
    return b''.join(write_page(page._replace(sequence=(first + number) % 2**32)) for number, page in enumerate(pages))


def run_damaged(folder, out):
    """The worked examples, streams damaged at random, and some with numbers that pass 2^32."""
    path, random = folder / 'damaged.opus', Random(SEED)
    for name, data, saved, printed in examples():
        if salvage(data) != (saved, printed):
            fault(f'example {name}', f'salvage.py prints {salvage(data)[1]!r}, not {printed!r}')
        path.write_bytes(data)
        compare(f'example {name}', data, path, out)
    for name, good, headers in streams():
        for number in range(TIMES):
            data = damaged_at_random(good, random, headers * (number % 4 > 0))
            path.write_bytes(data)
            compare(f'{name}, damaged {number}', data, path, out)
    for first in 2**32 - 5, 2**32 - 1, 7:
        data = renumbered(short_stream(), first)
        path.write_bytes(data)
        compare(f'numbered from {first}', data, path, out)


# ---- files

def damaged_file(folder):
    """A file with a stream of which a page is missing, and its bytes."""
    path, pages = folder / 'damaged.opus', cut(short_stream())
    data = b''.join(pages[:5] + pages[6:])
    path.write_bytes(data)
    return path, data


def run_inputs(folder, out):
    """Input from a pipe, a named pipe and another place of a file; names of any bytes."""
    path, data = damaged_file(folder)
    target = out / 'out'
    must_save('from a pipe', ['-', target], data, out, input=data)
    must_save('empty', ['/dev/null', target], b'', out)
    os.mkfifo(folder / 'damaged.pipe')
    writer = threading.Thread(target=(folder / 'damaged.pipe').write_bytes, args=(data,))
    writer.start()
    must_save('from a named pipe', [folder / 'damaged.pipe', target], data, out)
    writer.join()
    with open(folder / 'joined', 'w+b') as file:
        file.write(b'drip' * 2000 + data)
        file.seek(8000)
        must_save('after 8000 bytes of standard input', ['-', target], data, out, stdin=file)
    for name in b'two words', b'\xff\xfe', b'line\nfeed', b'--help', b'-x', b'a\x1b[2J':
        names = os.fsencode(out) + b'/' + name, os.fsencode(folder) + b'/' + name
        path.rename(os.fsdecode(names[1]))
        must_save(f'from {name}', ['--', name, target], data, out, cwd=folder)
        os.rename(names[1], path)
        must(f'salvage to {name}', ['salvage', '--', path, name], salvage(data)[1], DONE, b' pages kept, ', cwd=out)
        (out / 'out').unlink()
        os.rename(names[0], out / 'out')
        if files_of(out) != {'out': salvage(data)[0]}:
            fault(f'salvage to {name}', f'leaves {[*files_of(out)]}')


def run_link(folder, out):
    """A link stays, and the file behind it is replaced."""
    path, data = damaged_file(folder)
    saved, printed = salvage(data)
    (out / 'out').write_bytes(OLD)
    (out / 'link').symlink_to('out')
    must('salvage to a link', ['salvage', path, out / 'link'], printed, DONE, summary(data, saved, printed))
    if not (out / 'link').is_symlink() or files_of(out) != {'out': saved, 'link': saved}:
        fault('salvage to a link', f'leaves {[*files_of(out)]}')
    (out / 'link').unlink()


def run_long(folder, out):
    """More lines than the program's buffer holds, and an input that is mostly empty, for which little memory is taken."""
    pages = cut(pages_stream(MANY))
    data = b''.join(pages[:5] + pages[6:]).ljust(LONG, b'\0')
    path = folder / 'long.damaged'
    path.write_bytes(data)
    must_save('long', [path, out / 'out'], data, out)
    memory = own_memory_of('salvage', path, out / 'out')
    if memory > MOST_MEMORY:
        fault('memory of salvage', f'{memory} KiB')
    print(f'memory of salvage beside the mapping: {memory} KiB for {LONG} bytes, of which {sum(map(len, pages))} are pages')
    path.unlink()


# ---- trouble

def must_leave(name, words, message, out, **options):
    """A salvage that is in trouble, and leaves a folder as it was."""
    before = files_of(out)
    must(f'salvage, {name}', ['salvage', *words], b'', TROUBLE, message, **options)
    if files_of(out) != before:
        fault(f'salvage, {name}', f'leaves {[*files_of(out)]}')
    counts['salvages in trouble'] += 1


def limited(kind, size):
    """A limit on what the program may take."""
    return {'preexec_fn': lambda: resource.setrlimit(kind, (size, size))}


def run_one_file(folder, out):
    """The input and the output are one file, by one name or by several."""
    path, data = damaged_file(folder)
    target = out / 'out'
    target.write_bytes(data)
    (out / 'hard').hardlink_to(target)
    (out / 'soft').symlink_to(target)
    for one in target, out / 'hard', out / 'soft', out / '.' / 'out':
        for other in target, out / 'hard', out / 'soft':
            must_leave(f'{one} and {other}', [one, other], b' are one file', out)
        with open(one, 'rb') as file:
            must_leave(f'standard input and {one}', ['-', target], b' are one file', out, stdin=file)
    (out / 'hard').unlink()
    (out / 'soft').unlink()


def run_trouble(folder, out):
    """Files that cannot be read or written, and arguments that are wrong: a file that was there stays."""
    path, data = damaged_file(folder)
    target = out / 'out'
    target.write_bytes(OLD)
    (out / 'directory').mkdir()
    os.mkfifo(out / 'pipe')
    for wrong in folder, folder / 'missing', '', '/proc/self/mem':
        must_leave(f'from {wrong}', [wrong, target], b'cannot read', out)
        must_leave(f'from {wrong} to nothing', [wrong, out / 'new'], b'cannot read', out)
    must_leave('no standard input', ['-', target], b'cannot read', out, preexec_fn=lambda: os.close(0))
    for wrong in out / 'directory', f'{out}/directory/', '', '.', out / 'missing/out', target / 'out', out / 'pipe':
        must_leave(f'to {wrong!r}', [path, wrong], b'cannot write', out, cwd=out)
    for words in [], [path], ['-'], [path, '-'], ['-', '-'], [path, target, target], [path, target, '-x'], ['-x', path, target]:
        must_leave(f'arguments {words}', words, b'see embulgri ', out, input=data)
    for size in 0, 1, 500, len(salvage(data)[0]) - 1:
        for name in target, out / 'new':
            must_leave(f'full after {size} bytes', [path, name], b'cannot write', out, **limited(resource.RLIMIT_FSIZE, size))
    with open(folder / 'zeros', 'wb') as file:
        file.truncate(1 << 26)
    must_leave('no memory', [folder / 'zeros', target], b'no memory', out, **limited(resource.RLIMIT_AS, 1 << 27))
    (out / 'directory').rmdir()
    (out / 'pipe').unlink()


def run_closed(folder, out):
    """A folder in which nothing can be made, which root can all the same: then it is another user's run."""
    path, _ = damaged_file(folder)
    (out / 'out').write_bytes(OLD)
    out.chmod(0o555)
    options = {'user': 65534, 'group': 65534, 'extra_groups': []} if os.getuid() == 0 else {}
    try:
        for name in out / 'out', out / 'new':
            must_leave('to a closed folder', [path, name], b'Permission denied', out, **options)
    except PermissionError:
        print('another user cannot run the program: no closed folder was tried')
    out.chmod(0o755)


def run_unprinted(folder, out):
    """Standard output fails: what is saved is there whole, or what was there before."""
    path, data = damaged_file(folder)
    with open('/dev/full', 'wb') as full:
        for options in {'stdout': full}, {'preexec_fn': lambda: os.close(1)}:
            (out / 'out').write_bytes(OLD)
            must('salvage, no output', ['salvage', path, out / 'out'], b'', TROUBLE, b'cannot write', **options)
            if files_of(out) not in ({'out': OLD}, {'out': salvage(data)[0]}):
                fault('salvage, no output', f'leaves {[*files_of(out)]}')


def run_all(folder, out):
    run_damaged(folder, out)
    run_inputs(folder, out)
    run_link(folder, out)
    run_long(folder, out)
    run_one_file(folder, out)
    run_trouble(folder, out)
    run_closed(folder, out)
    run_unprinted(folder, out)
