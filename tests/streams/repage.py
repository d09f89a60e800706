#!/usr/bin/env python3
"""Puts the packets of an Ogg Opus stream on other pages, so that packets, the comment header's too, go over pages.

usage: tests/streams/repage.py VALUES [START [HOLE [TRIM]]] < FILE > FILE
A page gets VALUES lacing values. Granule positions start at START, 0 if not given, and from the middle of the pages on
they are HOLE higher. The last page is marked last and trims as many samples as the stream did, and TRIM more.
"""
import itertools
import sys

from listing import read
from pages import CONTINUED, LAST, NO_GRANULE, Page, cut, lacing_of, packets_of, read_page, write_page


def packets(data):
    """All packets of a stream."""
    held, found = None, []
    for part in cut(data):
        complete, held = packets_of(read_page(part), held)
        found += complete
    return found


def pieces(packet, granule):
    """(lacing value, bytes, granule position) of each piece of a packet; the last one has the position of its end."""
    values = lacing_of(packet)
    return [(value, packet[255 * i:255 * i + value], NO_GRANULE if value == 255 else granule)
            for i, value in enumerate(values)]


def paged(all_pieces, values, serial, sequence):
    """The pages with so many lacing values each, none of them marked last."""
    pages, continued = [], 0
    for at in range(0, len(all_pieces), values):
        part = all_pieces[at:at + values]
        granules = [granule for _, _, granule in part if granule != NO_GRANULE]
        pages.append(Page(continued, granules[-1] if granules else NO_GRANULE, serial, sequence + len(pages),
                          bytes(value for value, _, _ in part), b''.join(text for _, text, _ in part)))
        continued = CONTINUED if part[-1][0] == 255 else 0
    return pages


def repage(data, values, start=0, hole=0, trim=0):
    reader, _ = read(data)
    first = read_page(cut(data)[0])
    _, comments, *audio = packets(data)
    pages = [first] + paged(pieces(comments, 0), values, first.serial, 1)
    lengths = [entry.dur for entry in reader.entries]
    ends = [start + length for length in itertools.accumulate(lengths)]
    sound = paged([piece for packet, end in zip(audio, ends) for piece in pieces(packet, end)],
                  values, first.serial, len(pages))
    middle = len(sound) // 2
    sound[middle:] = [page._replace(granule=page.granule + hole) if page.granule != NO_GRANULE else page
                      for page in sound[middle:]]
    sound[-1] = sound[-1]._replace(flags=sound[-1].flags | LAST, granule=sound[-1].granule - reader.trimmed - trim)
    return b''.join(map(write_page, pages + sound))


if __name__ == '__main__':
    sys.stdout.buffer.write(repage(sys.stdin.buffer.read(), *map(int, sys.argv[1:])))
