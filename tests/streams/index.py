#!/usr/bin/env python3
"""The index of an Ogg Opus stream, and the search in it, an implementation of its own.

usage: tests/streams/index.py [POSITION] < FILE
Prints what `embulgri index` prints, or, with a position, `embulgri seek`.
"""
import functools
import itertools
import sys
from typing import NamedTuple

from listing import read
from pages import cut, read_page

HEADING = 'granule place sequence'
PRE_ROLL = 3840                         # samples, 80 ms (RFC 7845, 4.6)


class Record(NamedTuple):
    granule: int
    place: int
    sequence: int


def text(*lines):
    return ''.join(line + '\n' for line in lines).encode()


def indexed(data, reader, last):
    """The index of a stream, of what `read` gives: a record for each page on which an audio packet completes, and the line
    of the refusal, '' if the stream is whole."""
    if last.startswith('refused '):
        return [], last
    if not reader.tags:
        return [], 'refused 24'
    parts = cut(data)
    places = [0, *itertools.accumulate(map(len, parts))]
    numbers = sorted({entry.page for entry in reader.entries})
    pages = [(read_page(parts[number]), places[number]) for number in numbers]
    return [Record(page.granule, place, page.sequence) for page, place in pages], ''


@functools.lru_cache(maxsize=2)
def index(data):
    """The index of a stream."""
    return indexed(data, *read(data))


def index_lines(records, refusal=''):
    return text(refusal) if refusal else text(HEADING, *(' '.join(map(str, record)) for record in records))


def first_fall(granules):
    """The first place whose granule position is below the one before it, None if there is none."""
    return next((place for place in range(1, len(granules)) if granules[place] < granules[place - 1]), None)


def probes(granules, limit):
    """How many records halving looks at: each with half of those that remain, rounded down, before it."""
    low, rest, count = 0, len(granules), 0
    while rest:
        half = rest // 2
        count += 1
        if granules[low + half] <= limit:
            low, rest = low + half + 1, rest - half - 1
        else:
            rest = half
    return count


def found_by(records, target):
    """The last record that is early enough, None if there is none."""
    early = [record for record in records if record.granule <= target - PRE_ROLL]
    return early[-1] if early else None


def seek_lines(records, target):
    """What a search in these records prints."""
    granules = [record.granule for record in records]
    fall = first_fall(granules)
    if fall is not None:
        return text(f'refused 26 place {fall}')
    if target < PRE_ROLL:
        return text('begin 0')
    record, count = found_by(records, target), probes(granules, target - PRE_ROLL)
    if record is None:
        return text(f'begin {count}')
    return text(f'{HEADING} probes', ' '.join(map(str, (*record, count))))


if __name__ == '__main__':
    INDEX = index(sys.stdin.buffer.read())
    SOUGHT = len(sys.argv) > 1 and not INDEX[1]
    sys.stdout.buffer.write(seek_lines(INDEX[0], int(sys.argv[1])) if SOUGHT else index_lines(*INDEX))
