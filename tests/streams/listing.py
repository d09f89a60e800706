#!/usr/bin/env python3
"""The listing of an Ogg Opus stream, an implementation of its own from RFC 7845, 6716 and 3533.

usage: tests/streams/listing.py < FILE
Prints what the program `list` prints: `end dur frames kept`, a line for each packet, and the total or
`refused N page K`.
"""
import sys
from typing import NamedTuple

from opus import LONGEST_PACKET, read_head, read_packet, read_tags
from pages import CONTINUED, FIRST, LAST, NO_GRANULE, Refused, cut, packets_of, read_page, refuse


class Entry(NamedTuple):
    end: int
    dur: int
    frames: int
    kept: int
    trimmed: int
    page: int


class Reader:
    """Follows one stream page by page. After a refusal it is of no use."""

    def __init__(self):
        self.head = self.tags = self.serial = self.position = self.held = None
        self.ended = False
        self.pages = self.decoded = self.kept = self.skipped = self.trimmed = self.hole = 0
        self.entries = []
        self.marks = []                 # (granule position, samples decoded so far) of the pages that complete a packet

    def feed(self, data):
        refuse(2, self.ended)
        page = read_page(data)
        last = bool(page.flags & LAST)
        refuse(5, self.head and page.serial != self.serial)
        refuse(6, page.sequence != self.pages % 2**32)
        refuse(7, page.flags > 7 or bool(page.flags & FIRST) != (self.head is None) or last and not self.tags)
        refuse(8, bool(page.flags & CONTINUED) != (self.held is not None))
        packets, rest = packets_of(page, self.held)
        refuse(9, any(len(packet) > LONGEST_PACKET for packet in packets + [rest or b'']))
        if not self.tags:
            refuse(10, not page.lacing or len(packets) + (rest is not None) > 1 or not (self.head or packets))
        if packets:
            refuse(11, page.granule >= 2**63 if self.tags else page.granule != 0)
        else:
            refuse(11, page.granule != NO_GRANULE)
        if not self.head:
            self.head, self.serial = read_head(packets[0]), page.serial
        elif packets and not self.tags:
            self.tags = read_tags(packets[0])
        elif packets:
            self.list(page.granule, last, [read_packet(packet, self.head.streams) for packet in packets])
        self.held, self.ended = rest, last
        self.pages += 1

    def list(self, granule, last, packets):
        """The entries of the packets, given as (samples, frames), that end on a page (RFC 7845, 4)."""
        samples = sum(dur for dur, _ in packets)
        if self.position is None:
            refuse(18, last and granule < self.head.pre_skip)
            refuse(17, not last and granule < samples)
            before = max(granule - samples, 0)
        else:
            before = self.position
            refuse(17, granule < (before if last else before + samples))
            self.hole += max(granule - before - samples, 0)
        # Cut at its end, a last page starts where the one before it ended; any other page ends at its granule position.
        end = before if last and granule < before + samples else granule - samples
        for dur, frames in packets:
            end += dur
            trimmed = min(max(end - granule, 0), dur)
            skipped = min(max(self.head.pre_skip - self.decoded, 0), dur - trimmed)
            kept = dur - trimmed - skipped
            self.entries.append(Entry(end, dur, frames, kept, trimmed, self.pages))
            self.decoded += dur
            self.trimmed += trimmed
            self.skipped += skipped
            self.kept += kept
        self.position = granule
        self.marks.append((granule, self.decoded))


def read(data):
    """The reader after the pages of a stream up to the first that is refused, and the listing's last line."""
    reader = Reader()
    try:
        for part in cut(data):
            reader.feed(part)
    except Refused as why:
        return reader, f'refused {why.number} page {reader.pages}'
    return reader, 'total kept={0.kept} skipped={0.skipped} trimmed={0.trimmed} hole={0.hole}'.format(reader)


def listing(reader, last):
    """The listing as the bytes that the program prints, of what `read` gives."""
    lines = ['end dur frames kept'] + [f'{e.end} {e.dur} {e.frames} {e.kept}' for e in reader.entries] + [last]
    return ''.join(line + '\n' for line in lines).encode()


if __name__ == '__main__':
    sys.stdout.buffer.write(listing(*read(sys.stdin.buffer.read())))
