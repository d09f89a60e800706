#!/usr/bin/env python3
"""Crops Ogg Opus files with `embulgri`, and holds each crop to crop.py, to `embulgri list`, to opusinfo and to ffprobe; and
measures how its sound differs from that of the whole.

usage: tests/streams/cropped.py TIMES NAME=DIRECTORY ..
Takes every Ogg Opus file below each directory, and TIMES of the pages at which a crop may begin, or all if there are no
more, by a seed that is always the same. EMBULGRI is the program, target/cli/release/embulgri if not set. `embulgri list` must
accept the crop, and tell the same end, length and frames of each packet as of the whole. Opusinfo must warn of nothing that it
does not warn of in the whole as often. Ffprobe must give no error that it does not give of the whole, and find as many packets
as are listed. Opusdec must give as many samples as the whole has from there on, for the first crops of each file: their
greatest difference from 80 ms after the start of the crop on, when the decoder has settled, is printed, and each file with a
great one. Prints each wrong crop; the status is then 1.
"""
import array
import collections
import operator
import os
import pathlib
import re
import sys
import tempfile
from random import Random

from compare import is_opus
from crop import Stream
from index import PRE_ROLL
from programs import EMBULGRI, need, opusinfo, run
from salvaged import probed

SEED = 20261118
DECODED = 5                             # crops of a file whose sound is compared
GREAT = 0.05                            # a difference that is told with the file's name; full scale is 1
PIECE = 1 << 18                         # samples that are compared at a time
SAMPLE = 4                              # bytes of a sample, a 32-bit float

IS_EMPTY = re.compile(r'WARNING: stream N is empty')          # a crop may be shorter than the pre-skip


class Findings:
    """What was cropped, what is wrong, and how the sounds differ."""

    def __init__(self):
        self.files = self.crops = self.decoded = 0
        self.greatest, self.faults, self.great = 0.0, [], []

    def fault(self, path, page, text):
        self.faults.append(f'  WRONG {path}, cropped at page {page}: {text}')

    def differs(self, path, page, difference):
        self.decoded += 1
        self.greatest = max(self.greatest, difference)
        if difference > GREAT:
            self.great.append(f'  {path}, cropped at page {page}: differs by {difference:.4f}')


def listed(path):
    """The end, the length and the frames of each packet, by `embulgri list`; None if it refuses the file."""
    done = run(EMBULGRI, 'list', path)
    return [line.split()[:3] for line in done.stdout.splitlines()[1:-1]] if done.returncode == 0 else None


def warnings(path):
    """How often opusinfo warns of each thing, whatever the numbers are."""
    kinds = collections.Counter(re.sub(r'\d+', 'N', warning) for warning in opusinfo(path)[1])
    return collections.Counter({kind: count for kind, count in kinds.items() if not IS_EMPTY.match(kind)})


class Whole:
    """A file, and what is told of it."""

    def __init__(self, path, data):
        self.path, self.stream = path, Stream(data)
        self.listed, self.warnings, self.errors = listed(path), warnings(path), probed(path)[1]

    def before(self, page):
        """How many samples are decoded before a page."""
        return sum(entry.dur for entry in self.stream.entries if entry.page < page)


# ---- sound

def decode(path, sound):
    """The samples of a file, as floats at 48 kHz; the pre-skip and what is trimmed are left out."""
    sound.unlink(missing_ok=True)
    return run('opusdec', '--quiet', '--float', '--no-dither', '--rate', '48000', path, sound).returncode == 0


def greatest_difference(whole, place, cropped, skipped):
    """Of the sounds in two files, the one from a byte of it on and the other without its first bytes."""
    greatest = 0.0
    with open(whole, 'rb') as one, open(cropped, 'rb') as other:
        one.seek(place + skipped)
        other.seek(skipped)
        while piece := other.read(SAMPLE * PIECE):
            same = one.read(len(piece))
            if piece != same:
                pairs = map(operator.sub, array.array('f', piece), array.array('f', same))
                greatest = max(greatest, max(map(abs, pairs)))
    return greatest


def compare_sound(whole, crop, page, folder, findings):
    """Both end with the same sample, so that one is longer than the other by what is before the crop."""
    sounds = folder / 'whole.raw', folder / 'crop.raw'
    if not decode(crop, sounds[1]) or not sounds[0].exists():
        findings.fault(whole.path, page, 'opusdec fails')
        return
    sizes = [os.path.getsize(sound) for sound in sounds]
    frame = SAMPLE * whole.stream.head.channels
    if sizes[1] and sizes[0] - sizes[1] != frame * whole.before(page):
        findings.fault(whole.path, page, f'opusdec gives {sizes[1] // frame} samples, and {sizes[0] // frame} of the whole')
        return
    skipped = frame * max(PRE_ROLL - whole.stream.head.pre_skip, 0)
    difference = greatest_difference(sounds[0], sizes[0] - sizes[1], sounds[1], skipped)
    findings.differs(whole.path, page, difference)


# ---- crops

def wrong(whole, start, crop):
    """What is wrong with the crop of a file at a page, None if nothing is."""
    crop.unlink(missing_ok=True)
    done = run(EMBULGRI, 'crop', whole.path, str(start.page), crop)
    said = f'page {start.page}; its first packet starts at position {start.position}\n'.encode()
    if (done.returncode, done.stdout) != (0, b'') or not done.stderr.endswith(said):
        return f'status {done.returncode}, {done.stdout!r}, {done.stderr!r}'
    if crop.read_bytes() != whole.stream.crop(start.page):
        return 'has other bytes than crop.py gives'
    packets = listed(crop)
    kept = sum(entry.page >= start.page for entry in whole.stream.entries)
    if packets is None or whole.listed is None or packets != whole.listed[-kept:]:
        return 'is refused, or listed in another way than the whole'
    if warnings(crop) - whole.warnings:
        return f'opusinfo: {[*warnings(crop) - whole.warnings]}'
    count, errors = probed(crop)
    others = [error for error in errors if error not in whole.errors]
    if others:
        return f'ffprobe: {others[0]}'
    return None if count == b'%d' % len(packets) else f'ffprobe finds {count} packets, not {len(packets)}'


def crop_file(path, times, folder, random, findings):
    """Crops a file at pages taken at random."""
    whole, crop = Whole(path, path.read_bytes()), folder / 'crop.opus'
    findings.files += 1
    if whole.stream.refusal:
        findings.fault(path, None, whole.stream.refusal)
        return
    starts = random.sample(whole.stream.starts, min(times, len(whole.stream.starts)))
    if starts:
        decode(path, folder / 'whole.raw')
    for number, start in enumerate(starts):
        findings.crops += 1
        text = wrong(whole, start, crop)
        if text:
            findings.fault(path, start.page, text)
        elif number < DECODED:
            compare_sound(whole, crop, start.page, folder, findings)


def main():
    times, *groups = sys.argv[1:]
    need(EMBULGRI, 'opusinfo', 'opusdec', 'ffprobe')
    random, findings = Random(SEED), Findings()
    with tempfile.TemporaryDirectory() as name:
        for group in groups:
            directory = pathlib.Path(group.split('=', 1)[1])
            for path in sorted(filter(is_opus, directory.rglob('*'))):
                crop_file(path, int(times), pathlib.Path(name), random, findings)
    print(f'{findings.files} files, {findings.crops} crops, {findings.decoded} decoded: from 80 ms after its start on, the '
          f'sound of a crop differs from that of the whole by {findings.greatest:.7f} at most', *findings.great, sep='\n')
    print(f'cropped: {len(findings.faults)} wrong', *findings.faults[:50], sep='\n')
    sys.exit(len(findings.faults) > 0)


if __name__ == '__main__':
    main()
