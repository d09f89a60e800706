#!/usr/bin/env python3
"""Holds `list`, `tags` and `embulgri` to ffprobe, to opusinfo and to the listing in this directory, on Ogg Opus files.

usage: tests/streams/compare.py [--without-ffprobe | --refused] NAME=DIRECTORY ..
Takes every Ogg Opus file below each directory, told by its first bytes. Prints one line for each name, and each
difference with the rule that explains it. A difference that no rule explains is printed with DIFFERS and makes the
status 1. With --refused every stream is one that must be refused. LIST, TAGS and EMBULGRI are the programs,
target/bin/list, target/bin/tags and target/cli/release/embulgri if not set.
"""
import argparse
import collections
import itertools
import pathlib
import re
import sys

from comments import tags_lines
from index import index_lines, indexed
from listing import listing, read
from programs import EMBULGRI, LIST, TAGS, ffprobe, need, opusinfo, run, run_on


class Findings:
    """What was compared, and the differences, those that a rule explains apart."""

    def __init__(self, directory):
        self.directory = directory
        self.files = self.packets = self.several = self.explained = self.faults = 0
        self.lines = []

    def fault(self, path, text):
        self.faults += 1
        self.lines.append(f'  DIFFERS {path.relative_to(self.directory)}: {text}')

    def explain(self, path, text):
        self.explained += 1
        self.lines.append(f'  explained {path.relative_to(self.directory)}: {text}')


def is_opus(path):
    if path.is_symlink() or not path.is_file():
        return False
    with open(path, 'rb') as file:
        start = file.read(27 + 255 + 8)
    return start[:4] == b'OggS' and len(start) > 27 and start[27 + start[26]:].startswith(b'OpusHead')


def first_difference(ours, theirs):
    """The first place in which two lists differ."""
    pairs = itertools.zip_longest(ours, theirs)
    return next(f'number {n}: {a}, not {b}' for n, (a, b) in enumerate(pairs) if a != b)


def probed(reader):
    """What ffprobe shows of the packets of a stream, and how often and why that is not what the listing has.

    Times are whole samples, as Opus in Ogg has the time base 1/48000. ffprobe tells where a packet starts, and counts
    from the first sample that is played: `end - dur - pre_skip`. The first packet has the pre-skip as samples to skip;
    its duration stays whole. A packet that is trimmed at the end has that as samples to discard, and its duration is
    what is left of it, or 1 where nothing is left. Three rules of libavformat (oggdec.c, oggparseopus.c) give a packet
    another start than that:
    - the first packet on a page starts where the page before it ended, also where there is a hole between the two;
    - on the page that is marked last every other packet starts where what is left of the one before it ends, so that
      it goes on without a hole before the page, and without what was trimmed;
    - where the first page of audio is marked last, its first packet starts at position 0 (RFC 7845, 4.5, has the start
      that its granule position gives).
    """
    shown, reasons = [], collections.Counter()
    pre_skip = reader.head.pre_skip
    last_page = reader.pages - 1 if reader.ended else None
    before = why = None
    for entry in reader.entries:
        start = plain = entry.end - entry.dur - pre_skip
        if before and before.page != entry.page:
            start, why = before.end - pre_skip, 'it leaves out the hole before a page'
        elif before and entry.page == last_page:
            start = shown[-1][0] + shown[-1][1]
            why = 'it leaves out what was trimmed before them' if before.trimmed else why
        elif entry.page == last_page:
            start, why = -pre_skip, 'it takes a first page that is the last to start at 0'
        if start != plain:
            reasons[why] += 1
        shown.append((start, max(entry.dur - entry.trimmed, 1), 0 if before else pre_skip, entry.trimmed))
        before = entry
    return shown, reasons


def compare_ffprobe(path, reader, findings):
    shown, reasons = probed(reader)
    told = ffprobe(path)
    if told != shown:
        findings.fault(path, 'by ffprobe packet ' + first_difference(told, shown))
        return
    if reader.kept != max(sum(entry.dur for entry in reader.entries) - sum(skip + cut for _, _, skip, cut in told), 0):
        findings.fault(path, f'by ffprobe other than {reader.kept} samples are played')
    for why, times in reasons.items():
        findings.explain(path, f'ffprobe has earlier starts of {times} packets: {why}')


def played(reader):
    """The playback length that opusinfo prints: from the first sample that is played to the last granule position,
    holes counted, in milliseconds, rounded down. It reckons in floating point, which may give one millisecond less
    where the length is a whole number of them; this does the same."""
    seconds = (reader.kept + reader.hole) / 48000
    minutes = int(seconds) // 60
    rest = int(seconds - minutes * 60)
    return f'{minutes}m:{rest:02d}.{int((seconds - minutes * 60 - rest) * 1000):03d}s'


def commented(comment):
    """A comment as opusinfo shows it; it tells a picture's form in place of its text."""
    name = comment.split(b'=')[0]
    if name.upper() == b'METADATA_BLOCK_PICTURE':
        return b'\t' + name + b'=<picture>\n'
    return b'\t' + comment + b'\n'


def demixing(head):
    """The matrix as opusinfo shows it, a row for each output channel; the header has it by columns (RFC 8486, 3.2)."""
    columns = head.streams + head.coupled
    rows = (', '.join(f'{entry:6}' for entry in head.matrix[row::head.channels]) for row in range(head.channels))
    return '\n'.join([f'\tDemixing Matrix [{head.channels}x{columns}]:', *(f'\t[{row}]' for row in rows)])


def told_lines(reader):
    """Lines that opusinfo prints of the identification header and of the packets."""
    head, durs = reader.head, [entry.dur / 48 for entry in reader.entries]
    lines = [f'Pre-skip: {head.pre_skip}', f'Playback gain: {head.gain / 256:g} dB', f'Channels: {head.channels}']
    if head.rate:
        lines.append(f'Original sample rate: {head.rate} Hz')
    if head.streams > 1:
        lines.append(f'Streams: {head.streams}, Coupled: {head.coupled}')
    if head.family == 3:
        lines.append('Channel Mapping Family: 3\n' + demixing(head))
    elif head.family:
        lines.append(f'Channel Mapping Family: {head.family} Map: [{", ".join(map(str, head.mapping))}]')
    average = sum(durs) / len(durs)
    lines.append(f'Packet duration: {max(durs):6.1f}ms (max), {average:6.1f}ms (avg), {min(durs):6.1f}ms (min)')
    return lines + [f'Playback length: {played(reader)}']


def warned(reader):
    """The warnings that opusinfo gives of a stream that the listing accepts: at each page whose granule position is ahead
    of the samples decoded so far, as it is after a hole, and at the end where more than the last packet is trimmed."""
    first, last = reader.entries[0], reader.entries[-1]
    start = first.end - first.dur
    warnings = [f'WARNING: Sample count behind granule ({decoded}<{granule - start}) in stream 1'
                for granule, decoded in reader.marks if decoded < granule - start]
    if reader.trimmed > last.dur:
        warnings.append('WARNING: stream 1 has more than one packet of end trimming')
    return warnings


def compare_opusinfo(path, reader, findings):
    told, warnings = opusinfo(path)
    told = re.sub(rb'(?m)^(\tMETADATA_BLOCK_PICTURE=)\d+\|.*\|<\d+ bytes of image data>$', rb'\1<picture>', told)
    tags = reader.tags
    texts = b'Encoded with ' + tags.vendor + b'\n'
    if tags.comments:
        texts += b'User comments section follows...\n' + b''.join(map(commented, tags.comments))
    if not told.startswith(texts + b'Opus stream 1:\n'):
        findings.fault(path, f'opusinfo tells other comments than {texts!r}')
    for line in told_lines(reader):
        if f'\n\t{line}\n'.encode() not in told:
            findings.fault(path, f'opusinfo does not tell {line!r}')
    if warnings != warned(reader):
        findings.fault(path, 'opusinfo gives other warnings, ' + first_difference(warnings, warned(reader)))
    elif warnings:
        findings.explain(path, f'opusinfo warns {len(warnings)} times where `list` has hole={reader.hole} '
                               f'trimmed={reader.trimmed}')


def compare_embulgri(path, word, wanted, refused, findings):
    """What `embulgri` prints of a file, and its status; a message goes with a refusal alone."""
    done = run(EMBULGRI, word, path)
    if done.stdout != wanted:
        findings.fault(path, f'embulgri {word}: line ' + first_difference(done.stdout.split(b'\n'), wanted.split(b'\n')))
    if (done.returncode, bool(done.stderr)) != (2 if refused else 0, refused):
        findings.fault(path, f'embulgri {word}: status {done.returncode}, {done.stderr!r}')


def compare(path, options, findings):
    data = path.read_bytes()
    reader, last = read(data)
    findings.files += 1
    findings.packets += len(reader.entries)
    findings.several += sum(entry.frames > 1 for entry in reader.entries)
    if last.startswith('refused ') != options.refused:
        findings.fault(path, last)
        return
    for word, program, wanted in ('list', LIST, listing(reader, last)), ('tags', TAGS, tags_lines(reader, last)):
        told = run_on(program, path)
        if told != wanted:
            findings.fault(path, f'{program}: line ' + first_difference(told.split(b'\n'), wanted.split(b'\n')))
        refused = wanted.splitlines()[-1].startswith(b'refused ')
        compare_embulgri(path, word, wanted, refused, findings)
    compare_embulgri(path, 'index', index_lines(*indexed(data, reader, last)), options.refused, findings)
    if options.refused:
        return
    if not options.without_ffprobe and reader.head.family != 3:         # ffprobe reads no stream of family 3
        compare_ffprobe(path, reader, findings)
    compare_opusinfo(path, reader, findings)


def main():
    parser = argparse.ArgumentParser()
    parser.add_argument('--without-ffprobe', action='store_true')
    parser.add_argument('--refused', action='store_true')
    parser.add_argument('groups', nargs='+', metavar='NAME=DIRECTORY')
    options = parser.parse_args()
    need(LIST, TAGS, EMBULGRI, 'opusinfo', *([] if options.without_ffprobe else ['ffprobe']))
    faults = 0
    for group in options.groups:
        name, directory = group.split('=', 1)
        directory = pathlib.Path(directory)
        findings = Findings(directory)
        for path in sorted(filter(is_opus, directory.rglob('*'))):
            compare(path, options, findings)
        if not findings.files:
            findings.fault(directory, 'no Ogg Opus file')
        print(f'{name}: {findings.files} files, {findings.packets} packets, {findings.several} of several frames, '
              f'{findings.explained} differences explained, {findings.faults} not explained', *findings.lines, sep='\n',
              flush=True)
        faults += findings.faults
    sys.exit(faults > 0)


if __name__ == '__main__':
    main()
