#!/usr/bin/env python3
"""The crop of an Ogg Opus stream at a page, an implementation of its own.

usage: tests/streams/crop.py PAGE < FILE > FILE
Both headers stay as they are, and the pages from PAGE on are numbered so that they follow them. The status is 1 where no
crop begins there.
"""
import functools
import sys
from typing import NamedTuple

from listing import read
from pages import CONTINUED, LAST, cut, read_page, write_page

END = 2**64 - 1                         # the last page, and the last position


class Start(NamedTuple):
    page: int
    position: int


def completes(page):
    """Whether a packet ends on a page."""
    return any(value < 255 for value in page.lacing)


class Stream:
    """The line of a stream's refusal; or '' and, since it is whole, its identification header, what is listed of it, its
    pages, how many of them are its headers', and the places at which a crop may begin."""

    def __init__(self, data):
        reader, last = read(data)
        whole = not last.startswith('refused ')
        self.refusal = '' if whole and reader.tags else 'refused 24' if whole else last
        if self.refusal:
            return
        self.head, self.entries = reader.head, reader.entries
        self.pages = [read_page(part) for part in cut(data)]
        ending = [number for number, page in enumerate(self.pages) if completes(page)]
        self.headers = ending[1] + 1
        positions = {entry.page: entry.end - entry.dur for entry in reversed(self.entries)}     # of the first on each page
        self.starts = [Start(number, positions[number]) for number in ending[2:]
                       if not self.pages[number].flags & (CONTINUED | LAST)]

    def start(self, last, position):
        """The last place up to a page and a position at which a crop may begin, None if there is none."""
        found = [start for start in self.starts if start.page <= last and start.position <= position]
        return found[-1] if found else None

    def crop(self, number):
        """The bytes of the crop at a page, None if it may not begin there."""
        if all(start.page != number for start in self.starts):
            return None
        kept = self.pages[:self.headers] + self.pages[number:]
        return b''.join(write_page(page._replace(sequence=sequence % 2**32)) for sequence, page in enumerate(kept))


@functools.lru_cache(maxsize=2)
def stream_of(data):
    return Stream(data)


if __name__ == '__main__':
    STREAM = stream_of(sys.stdin.buffer.read())
    CROPPED = None if STREAM.refusal else STREAM.crop(int(sys.argv[1]))
    if CROPPED is None:
        sys.exit(1)
    sys.stdout.buffer.write(CROPPED)
