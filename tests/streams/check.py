#!/usr/bin/env python3
"""What the writer of an Ogg Opus stream was advised against (RFC 7845), an implementation of its own.

usage: tests/streams/check.py < FILE
Prints what `embulgri check` prints: a line for each finding and `accepted`, or the line of the refusal.
"""
import functools
import itertools
import re
import sys
from typing import NamedTuple

from listing import read
from pages import cut, read_page

WORDS = {1: 'unfinished', 2: 'no-end', 3: 'trimmed', 4: 'replaygain', 5: 'hole'}         # by the number of the kind

REPLAYGAIN = re.compile(rb'(?i)REPLAYGAIN_(TRACK|ALBUM)_(GAIN|PEAK)=')


class Finding(NamedTuple):
    page: int
    kind: int


def comments_page(data):
    """The page on which the comment header completes: the second one on which a packet does."""
    ending = (number for number, part in enumerate(cut(data)) if any(value < 255 for value in read_page(part).lacing))
    return next(itertools.islice(ending, 1, None))


def holes(reader):
    """The pages whose granule position is further from the one before than their packets are long."""
    pages = sorted({entry.page for entry in reader.entries})
    steps = zip(pages[1:], reader.marks, reader.marks[1:])
    return [page for page, before, after in steps if after[0] - before[0] > after[1] - before[1]]


def findings(data, reader):
    """The findings on a whole stream, by page and then by kind, of what `read` gives."""
    end, found = reader.pages - 1, [Finding(page, 5) for page in holes(reader)]
    if reader.held is not None:
        found.append(Finding(end, 1))
    if not reader.ended:
        found.append(Finding(end, 2))
    if reader.entries and reader.trimmed > reader.entries[-1].dur:
        found.append(Finding(end, 3))
    if any(map(REPLAYGAIN.match, reader.tags.comments)):
        found.append(Finding(comments_page(data), 4))
    return sorted(found)


def check(data):
    """The findings on a stream, and the line of its refusal, '' if it is whole."""
    reader, last = read(data)
    if last.startswith('refused '):
        return [], last
    return (findings(data, reader), '') if reader.tags else ([], 'refused 24')


@functools.lru_cache(maxsize=2)
def check_lines(data):
    """The same as lines."""
    found, refusal = check(data)
    lines = [refusal] if refusal else [f'{WORDS[kind]} page {page}' for page, kind in found] + ['accepted']
    return ''.join(line + '\n' for line in lines).encode()


if __name__ == '__main__':
    sys.stdout.buffer.write(check_lines(sys.stdin.buffer.read()))
