"""What the benchmarks build and make. It is kept under EMBULGRI_CACHE, target/bench if not set."""
import os
import pathlib
import subprocess
import sys

HERE = pathlib.Path(__file__).resolve().parent
ROOT = HERE.parent
CACHE = pathlib.Path(os.environ.get('EMBULGRI_CACHE', ROOT / 'target/bench'))
LIBRARY = ROOT / 'target/staticlib/libembulgri.a'

# name, milliseconds of a packet, packets on a page, part of the bytes asked for
INPUTS = (('2.5 ms packets, 255 a page', '2.5', 255, 1),       # many short packets: lacing values and lines decide
          ('20 ms packets, 50 a page', '20', 50, 1),           # what encoders write: the checksum decides
          ('2.5 ms packets, one a page', '2.5', 1, 8))         # short pages: their heads decide


def library():
    """Builds the library if it is not there yet."""
    if not LIBRARY.exists():
        subprocess.run(['tools/staticlib', 'embulgri'], cwd=ROOT, stdout=sys.stderr, check=True)


def build(name, *flags):
    """The program that gcc makes of a file of this directory."""
    CACHE.mkdir(parents=True, exist_ok=True)
    program = CACHE / name
    subprocess.run(['gcc', '-Wall', '-Wextra', '-o', program, HERE / f'{name}.c', *flags], check=True)
    return str(program)


def made(name, write):
    """The file with this name, written by a function if it is not there yet."""
    path = CACHE / name
    if not path.exists():
        part = CACHE / f'{name}.part'
        with open(part, 'wb') as file:
            write(file)
        part.rename(path)
    return path


def made_by(name, *command):
    """The file with this name, which a command writes if it is not there yet."""
    return made(name, lambda file: subprocess.run(command, stdout=file, check=True))


def short_stream(milliseconds):
    sound = made_by('sound.raw', sys.executable, ROOT / 'tests/streams/sound.py', '2', '336000')
    return made_by(f'short-{milliseconds}.opus', 'opusenc', '--quiet', '--raw', '--serial', '1', '--bitrate', '64',
                   '--framesize', milliseconds, sound, '-')


def long_stream(milliseconds, packets, size):
    """A stream of so many bytes, with so many packets of this length on a page."""
    return made_by(f'long-{milliseconds}-{packets}-{size}.opus', build('long_stream', '-O2'), short_stream(milliseconds),
                   str(size), str(packets))
