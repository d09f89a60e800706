#!/usr/bin/env python3
"""Damages Ogg Opus files, salvages each with `embulgri`, and holds what is saved to `embulgri list`, opusinfo and ffprobe.

usage: tests/streams/salvaged.py TIMES NAME=DIRECTORY ..
Takes a directory at random, and a file below it, by a seed that is always the same. Most of the time its packets are put on
other pages first, so that long ones go over pages. EMBULGRI is the program, target/cli/release/embulgri if not set.
`embulgri list` must accept what is saved. Opusinfo must warn of nothing but sound that is missing or trimmed. Ffprobe must
give no error that it does not give of the stream undamaged, and find as many packets as are listed. Prints how often there
were lines of each kind, and each wrong salvage; the status is then 1.
"""
import collections
import pathlib
import re
import sys
import tempfile
from random import Random

from compare import is_opus
from damaged import damaged_at_random
from listing import Reader
from pages import cut
from programs import EMBULGRI, need, run
from repage import repage

SEED = 20261117
MOST = 30                               # damages to one file
VALUES = 0, 0, 1, 2, 3, 20             # lacing values of a page, on which the packets are put; 0: they stay on theirs

# What opusinfo may say of sound that is missing, at the end too. All else that it warns of are broken pages or packets.
OF_SOUND = re.compile(rb'WARNING: Sample count behind granule|WARNING: EOS not set|WARNING: stream \d+ is empty|'
                      rb'WARNING: stream \d+ has more than one packet of end trimming|'
                      rb'WARNING: stream \d+ has high muxing delay|'
                      rb'ERROR: stream \d+ has interior holes or more than one page of end trimming')


def header_pages(data):
    reader, parts = Reader(), iter(cut(data))
    while not reader.tags:
        reader.feed(next(parts))
    return reader.pages


def warnings(path):
    """What opusinfo warns of, but for sound that is missing."""
    lines = [line.strip() for line in run('opusinfo', path).stdout.splitlines()]
    return [line for line in lines if line.startswith((b'WARNING: ', b'ERROR: ')) and not OF_SOUND.match(line)]


def probed(path):
    """How many packets ffprobe finds, and its errors without what differs from run to run."""
    done = run('ffprobe', '-v', 'error', '-count_packets', '-show_entries', 'stream=nb_read_packets', '-of', 'csv=p=0', path)
    return done.stdout.strip(), re.sub(rb' @ 0x[0-9a-f]+|' + re.escape(bytes(path)), b'', done.stderr).splitlines()


def judged(path, like):
    """What is wrong with what was saved of a file, given how ffprobe speaks of that file; None if nothing is."""
    listed = run(EMBULGRI, 'list', path)
    if listed.returncode != 0:
        return f'is refused: {listed.stdout.splitlines()[-1:]}'
    if warnings(path):
        return f'opusinfo: {warnings(path)[0]}'
    count = listed.stdout.count(b'\n') - 2
    if not count:                       # to ffprobe this is no recording
        return None
    packets, errors = probed(path)
    others = [error for error in errors if error not in like]
    if others:
        return f'ffprobe: {others[0]}'
    return None if packets == b'%d' % count else f'ffprobe finds {packets} packets, not {count}'


def salvaged(folder, data, random):
    """How a stream, damaged, is salvaged: in words, and what is wrong with it."""
    spared = random.choice([0, 1, 1, 1, 1, 1, 1, 1]) * header_pages(data)
    good, damaged, saved = folder / 'good.opus', folder / 'damaged.opus', folder / 'saved.opus'
    good.write_bytes(data)
    damaged.write_bytes(damaged_at_random(data, random, spared, min(MOST, len(cut(data)) // 3)))
    saved.unlink(missing_ok=True)
    done = run(EMBULGRI, 'salvage', damaged, saved)
    if done.returncode == 2 and done.stdout == b'refused 24\n' and not saved.exists():
        return 'refused', None if not spared else 'its headers are whole'
    if done.returncode != 0:
        return 'failed', f'status {done.returncode}, {done.stderr!r}'
    counts = collections.Counter(line.split()[0] for line in done.stdout.decode().splitlines())
    return ' and '.join(sorted(counts)) or 'without a line', judged(saved, probed(good)[1])


def main():
    times, *groups = sys.argv[1:]
    need(EMBULGRI, 'opusinfo', 'ffprobe')
    directories = [pathlib.Path(group.split('=', 1)[1]) for group in groups]
    files = [sorted(filter(is_opus, directory.rglob('*'))) for directory in directories]
    random, ways, faults = Random(SEED), collections.Counter(), []
    with tempfile.TemporaryDirectory() as name:
        for number in range(int(times)):
            path = random.choice(random.choice(files))
            data, values = path.read_bytes(), random.choice(VALUES)
            way, wrong = salvaged(pathlib.Path(name), repage(data, values) if values else data, random)
            ways[way] += 1
            if wrong:
                faults.append(f'  WRONG {number}, {path}: {wrong}')
    print(f'{sum(map(len, files))} files, damaged {times} times:', ', '.join(f'{ways[way]} {way}' for way in sorted(ways)))
    print(f'salvaged: {len(faults)} wrong', *faults[:50], sep='\n')
    sys.exit(len(faults) > 0)


if __name__ == '__main__':
    main()
