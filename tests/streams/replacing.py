"""Runs of `embulgri salvage` and `embulgri crop` that find OUT, or what is beside it, in some other way than usual: names that
are long, files that a killed run left, and permissions."""
import os
import stat

from crop import stream_of
from made import short_stream
from runs import DONE, TROUBLE, counts, fault, must
from salvaging import OLD, files_of

LONGEST = 255                           # bytes of a file's name
NAMES = 100                             # how many names the program tries for what it writes beside OUT


def commands(folder):
    """(words before OUT, what is written, a part of what is said) of a salvage and of a crop."""
    path = folder / 'replaced.opus'
    path.write_bytes(short_stream())
    yield ['salvage', path], short_stream(), b'; nothing was changed\n'
    yield ['crop', path, '5'], stream_of(short_stream()).crop(5), b': the crop begins with page 5; '
    yield ['crop', '--at', '2520', path], stream_of(short_stream()).crop(5), b': the crop begins with page 5; '


def must_hold(name, out, files):
    """A folder has these files, which are then removed."""
    counts['replaced'] += 1
    found = files_of(out)
    if found != files:
        fault(name, f'leaves {[(file, len(text)) for file, text in found.items()]}')
    for file in found:
        (out / file).unlink()


def run_names(folder, out):
    """A name as long as names may be, of a new file and of one that is there; one that is longer."""
    for words, due, said in commands(folder):
        for size in 230, 250, LONGEST:
            for before in None, OLD:
                name = f'{words[0]} to a name of {size} bytes'
                target = out / ('x' * size)
                if before:
                    target.write_bytes(before)
                must(name, [*words, target], b'', DONE, said)
                must_hold(name, out, {target.name: due})
        must('a name too long', [*words, out / ('x' * (LONGEST + 1))], b'', TROUBLE, b'cannot write')
        must_hold('a name too long', out, {})
        must('a plain name', [*words, 'x'], b'', DONE, said, cwd=out)
        must_hold('a plain name', out, {'x': due})


def left(out, count):
    """Makes the files that the program would make first beside OUT. It is to be called in the process of the program."""
    for number in range(count):
        (out / f'embulgri.{os.getpid()}.{number}.part').write_bytes(OLD)


def run_left(folder, out):
    """A run that was killed left a file: another name is taken, and where all are taken OUT stays."""
    for words, due, said in commands(folder):
        for count in 1, 5, NAMES - 1, NAMES:
            (out / 'out').write_bytes(OLD)
            name = f'{words[0]} beside {count} files that were left'
            ending = (DONE, said) if count < NAMES else (TROUBLE, b'cannot write')
            must(name, [*words, out / 'out'], b'', *ending, preexec_fn=lambda count=count: left(out, count))
            parts = [file for file in files_of(out) if file.endswith('.part')]
            if len(parts) != count:
                fault(name, f'leaves {parts}')
            must_hold(name, out, {'out': due if count < NAMES else OLD, **dict.fromkeys(parts, OLD)})


def mode_of(path):
    return stat.S_IMODE(path.stat().st_mode)


def must_permit(name, path, mode):
    if mode_of(path) != mode:
        fault(name, f'has the mode {mode_of(path):o}, not {mode:o}')


def run_modes(folder, out):
    """A file that is replaced passes on its permissions, also behind a link; a new one has those that the user wants."""
    target = out / 'out'
    for words, due, said in commands(folder):
        for mode in 0o600, 0o640, 0o444, 0o666, 0o755, 0o707:
            for mask in 0o022, 0o077:
                name, wanted = f'{words[0]} over a file of mode {mode:o}', {'preexec_fn': lambda mask=mask: os.umask(mask)}
                target.write_bytes(OLD)
                target.chmod(mode)
                (out / 'link').symlink_to('out')
                must(name, [*words, out / 'link'], b'', DONE, said, **wanted)
                must_permit(name, target, mode)
                must_hold(name, out, {'out': due, 'link': due})
        for mask in 0o022, 0o027, 0o077:
            name = f'{words[0]} to a new file, mask {mask:o}'
            must(name, [*words, target], b'', DONE, said, preexec_fn=lambda mask=mask: os.umask(mask))
            must_permit(name, target, 0o666 & ~mask)
            must_hold(name, out, {'out': due})


def run_all(folder, out):
    for path in out.iterdir():
        path.unlink()
    run_names(folder, out)
    run_left(folder, out)
    run_modes(folder, out)
