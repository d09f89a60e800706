#!/usr/bin/env python3
"""Salvage of an Ogg Opus stream from damaged bytes, an implementation of its own of docs/RULES.md, 16.

usage: tests/streams/salvage.py OUT < FILE
Writes to OUT what is saved, and prints what `embulgri salvage` prints. Every round begins all over, with the pages as they
were.
"""
import functools
import pathlib
import sys
from dataclasses import dataclass
from typing import NamedTuple

from index import text
from listing import Reader
from pages import CONTINUED, FIRST, Page, Refused, extent, read_page, write_page


class Good(NamedTuple):
    place: int
    end: int
    page: Page


@dataclass
class Run:
    """The numbers of the pages that a packet goes over, whether the first of them continues it rather than begins it, and
    whether the last hands it on rather than ends it."""
    pages: list
    continues: bool
    goes_on: bool


class Tidied(NamedTuple):
    page: Page
    cleared: bool                       # its continued mark
    cuts: list                          # the bytes of each removed piece


# ---- good pages

def good_at(data, place):
    """The good page that starts at a place, None if there is none."""
    end = extent(data, place)
    try:
        return Good(place, end, read_page(data[place:end]))
    except Refused:
        return None


def good_pages(data):
    """All good pages; behind each of them the search goes on."""
    found, place = [], data.find(b'OggS')
    while place >= 0:
        good = good_at(data, place)
        found += [good] if good else []
        place = data.find(b'OggS', good.end if good else place + 1)
    return found


def of_stream(goods):
    """Those with the serial of the first one that is marked first."""
    serial = next((good.page.serial for good in goods if good.page.flags & FIRST), None)
    return [good for good in goods if good.page.serial == serial]


# ---- cut packets

def is_break(pages, number):
    """Whether there is a page with this number, and it does not follow the one before it."""
    return 0 < number < len(pages) and pages[number].sequence != (pages[number - 1].sequence + 1) % 2**32


def runs(pages):
    """The runs of all packets that a page continues or hands on."""
    found, held = [], None              # what the page before hands on
    for number, page in enumerate(pages):
        continued, ends = page.flags & CONTINUED, any(value < 255 for value in page.lacing)
        if continued and (held is None or is_break(pages, number)):
            found.append(held := Run([], True, True))
        if continued:
            held.pages.append(number)
            held.goes_on = not ends
        if not continued or ends:
            held = None
            if page.lacing.endswith(b'\xff'):
                found.append(held := Run([number], False, True))
    return found


def cut_pieces(pages):
    """The numbers of the pages with a leading piece, and of those with a trailing piece, of a packet that a break cuts."""
    leading, trailing = set(), set()
    for run in runs(pages):
        if run.continues and is_break(pages, run.pages[0]) or run.goes_on and is_break(pages, run.pages[-1] + 1):
            begins = [] if run.continues else run.pages[:1]
            trailing.update(begins)
            leading.update(run.pages[len(begins):])
    return leading, trailing


def tidy_page(page, number, lead, trail):
    """A page with its new number, without its leading or its trailing piece."""
    values = page.lacing
    ends = [place + 1 for place, value in enumerate(values) if value < 255]
    first = (ends or [len(values)])[0] if lead else 0
    last = (ends or [0])[-1] if trail else len(values)
    cuts = [sum(values[:first])] if lead and values else []
    cuts += [sum(values[last:])] if trail else []
    return Tidied(page._replace(flags=page.flags & ~CONTINUED if lead else page.flags, sequence=number % 2**32,
                                lacing=values[first:last], body=page.body[sum(values[:first]):sum(values[:last])]),
                  lead, cuts)


def tidy(pages):
    leading, trailing = cut_pieces(pages)
    return [tidy_page(page, number, number in leading, number in trailing) for number, page in enumerate(pages)]


# ---- rounds

def feed(tidied):
    """The reader after these pages, up to the first that it refuses."""
    reader = Reader()
    try:
        for new in tidied:
            reader.feed(write_page(new.page))
    except Refused:
        pass
    return reader


def settle(goods):
    """The pages that are kept, these tidied, and the reader after them."""
    while True:
        tidied = tidy([good.page for good in goods])
        reader = feed(tidied)
        if reader.pages == len(goods):
            return goods, tidied, reader
        goods = goods[:reader.pages] + goods[reader.pages + 1:]


def skip(start, end):
    return [f'skip {start} {end - start}'] if start < end else []


def changes(good, new):
    """The lines of a page that is kept."""
    lines = [f'number {good.place} 4'] if new.page.sequence != good.page.sequence else []
    lines += [f'mark {good.place} 1'] if new.cleared else []
    return lines + [f'cut {good.place} {size}' for size in new.cuts]


@functools.lru_cache(maxsize=2)
def salvage(data):
    """What is saved, None if nothing is, and what is printed."""
    goods, tidied, reader = settle(of_stream(good_pages(data)))
    if not reader.tags:
        return None, text('refused 24')
    lines, end = [], 0
    for good, new in zip(goods, tidied):
        lines += skip(end, good.place) + changes(good, new)
        end = good.end
    return b''.join(write_page(new.page) for new in tidied), text(*lines, *skip(end, len(data)))


if __name__ == '__main__':
    SAVED, PRINTED = salvage(sys.stdin.buffer.read())
    if SAVED is not None:
        pathlib.Path(sys.argv[1]).write_bytes(SAVED)
    sys.stdout.buffer.write(PRINTED)
