#!/usr/bin/env python3
"""Sets what `embulgri check` finds in Ogg Opus files beside what opusinfo warns of.

usage: tests/streams/checked.py NAME=DIRECTORY ..
Takes every Ogg Opus file below each directory, told by its first bytes. EMBULGRI is the program, target/cli/release/embulgri
if not set; it is held to check.py. The verdicts on a file are equal where each finding has a warning, and each warning a
finding, by the table below; a file that is refused, where opusinfo warns of something that is refused. Prints each file where
they differ, with all findings and warnings, and at the end how many files have equal and different verdicts: that is no
fault of either. A file of which the program prints something else than check.py, or ends with another status, is printed with
WRONG and makes the status 1.
"""
import collections
import pathlib
import re
import sys

from check import check_lines
from compare import is_opus
from programs import EMBULGRI, need, run

# What opusinfo warns of, and the findings of which it tells then, one of these at least. It has no warning for a last packet
# that is unfinished, and none for a REPLAYGAIN tag: on a file with such a finding the verdicts differ.
REFUSED = 'refused',
WARNINGS = (
    (r'WARNING: EOS not set on stream', ('no-end',)),
    (r'.*missing EOS', ('no-end',)),
    (r'WARNING: stream \d+ has more than one packet of end trimming', ('trimmed',)),
    (r'ERROR: stream \d+ has interior holes or more than one page of end trimming', ('hole', 'trimmed')),
    (r'WARNING: Sample count behind granule', ('hole',)),
    (r'WARNING: Sample count ahead of granule', REFUSED),
    (r'WARNING: Hole in data', REFUSED),                       # of bytes that are no page
    (r'WARNING: sequence number gap', REFUSED),
    (r'WARNING: discontinuity in stream', REFUSED),
    (r'WARNING: illegally placed page', REFUSED),
    (r'WARNING: stream start flag', REFUSED),
    (r'WARNING: granulepos in stream \d+ decreases', REFUSED),
    (r'WARNING: Samples with negative granpos', REFUSED),
    (r'WARNING: Page with positive granpos', REFUSED),
    (r'Negative or zero granulepos', REFUSED),
    (r'ERROR: stream \d+ has a negative duration', REFUSED),
    (r'WARNING: Invalid (header page|packet|zero byte packet)', REFUSED),
    (r'WARNING: Could not decode Opus', REFUSED),
    (r'WARNING: (Illegal UTF-8 sequence|Invalid comment fieldname)', REFUSED),
)
IS_WARNING = re.compile(r'WARNING: |ERROR: |Negative or zero granulepos|.*missing EOS')
STATUSES = {b'accepted\n': 0, b'refused ': 2}                  # by what the lines begin with; any other is 1


def warned(path):
    """What opusinfo warns of, line by line."""
    lines = (line.strip() for line in run('opusinfo', path).stdout.decode('utf-8', 'replace').splitlines())
    return [line for line in lines if IS_WARNING.match(line)]


def told_by(warning):
    """The findings that a warning may tell of; none for a warning of something else."""
    return next((words for text, words in WARNINGS if re.match(text, warning)), ())


def are_equal(found, warnings):
    """Whether the findings, by their words, and the warnings tell the same."""
    told = [told_by(warning) for warning in warnings]
    if 'refused' in found:
        return REFUSED in told
    return all(found.intersection(words) for words in told) and found <= {word for words in told for word in words}


def summed(lines):
    """Lines that differ in their numbers alone as one, with how many they are and the first of them."""
    kinds = collections.defaultdict(list)
    for line in lines:
        kinds[re.sub(r'\d+', 'N', line)].append(line)
    return '; '.join(f'{some[0]} (and {len(some) - 1} more)' if some[1:] else some[0] for some in kinds.values()) or 'nothing'


class Findings:
    """What was checked: the files with each finding, those with equal and different verdicts, and what is wrong."""

    def __init__(self):
        self.words, self.equal, self.different, self.faults = collections.Counter(), 0, 0, []

    def check(self, path):
        done, due = run(EMBULGRI, 'check', path), check_lines(path.read_bytes())
        status = next((number for start, number in STATUSES.items() if due.startswith(start)), 1)
        if (done.stdout, done.returncode) != (due, status):
            self.faults.append(f'  WRONG {path}: prints {done.stdout[-80:]!r}, says {done.stderr!r}, status {done.returncode}, '
                               f'not {due[-80:]!r}, {status}')
        lines = [line for line in done.stdout.decode().splitlines() if line != 'accepted']
        found, warnings = {line.split()[0] for line in lines}, warned(path)
        self.words.update(found)
        if are_equal(found, warnings):
            self.equal += 1
            return
        self.different += 1
        print(f'  differs, {path}:', f'    check finds: {summed(lines)}', f'    opusinfo warns: {summed(warnings)}', sep='\n')


def main():
    need(EMBULGRI, 'opusinfo')
    findings = Findings()
    for group in sys.argv[1:]:
        name, directory = group.split('=', 1)
        print(f'{name}:', flush=True)
        for path in sorted(filter(is_opus, pathlib.Path(directory).rglob('*'))):
            findings.check(path)
    print('files with a finding:', ', '.join(f'{count} {word}' for word, count in sorted(findings.words.items())) or 'none')
    print(f'{findings.equal + findings.different} files: {findings.equal} with equal verdicts, {findings.different} with '
          f'different ones')
    print(f'checked: {len(findings.faults)} wrong', *findings.faults[:50], sep='\n')
    sys.exit(len(findings.faults) > 0)


if __name__ == '__main__':
    main()
