"""Ogg pages (RFC 3533): their checksum, cutting a stream into pages, and making pages.

Written from the RFC, with no code in common with the library: what the library does is held to this.
"""
import binascii
import struct
from typing import NamedTuple

CONTINUED, FIRST, LAST = 1, 2, 4
NO_GRANULE = 2**64 - 1

REVERSED = bytes(int(f'{byte:08b}'[::-1], 2) for byte in range(256))


class Refused(Exception):
    """A stream is refused by a number."""

    def __init__(self, number):
        super().__init__(number)
        self.number = number


def refuse(number, wrong):
    if wrong:
        raise Refused(number)


class Page(NamedTuple):
    flags: int
    granule: int
    serial: int
    sequence: int
    lacing: bytes
    body: bytes


def checksum(data):
    """The checksum of a page whose own field is zero.

    RFC 3533 takes the high bit of a byte first, starts with 0 and changes nothing at the end; crc32 takes the low bit
    first and inverts the register at both ends. So the bits of the bytes and of the sum are turned round.
    """
    register = binascii.crc32(data.translate(REVERSED), 0xffffffff) ^ 0xffffffff
    return int(f'{register:032b}'[::-1], 2)


def extent(data, at):
    """Where the page that starts at a place ends, or the end of the data if no whole page does."""
    if data[at:at + 4] != b'OggS' or len(data) < at + 27:
        return len(data)
    body = at + 27 + data[at + 26]
    return min(body + sum(data[at + 27:body]), len(data))


def cut(data):
    """The bytes of a stream page by page; what is no whole page comes last, as it is."""
    at, parts = 0, []
    while at < len(data):
        end = extent(data, at)
        parts.append(data[at:end])
        at = end
    return parts


def read_page(data):
    """The page that the bytes are, or 3 or 4."""
    refuse(3, len(data) < 27 or data[:5] != b'OggS\0')
    flags, granule, serial, sequence, crc, count = struct.unpack('<BQIIIB', data[5:27])
    lacing, body = data[27:27 + count], data[27 + count:]
    refuse(3, len(lacing) != count or len(body) != sum(lacing))
    refuse(4, checksum(data[:22] + bytes(4) + data[26:]) != crc)
    return Page(flags, granule, serial, sequence, lacing, body)


def write_page(page):
    """The bytes of a page, with the right checksum."""
    head = b'OggS\0' + struct.pack('<BQII', *page[:4])
    rest = bytes([len(page.lacing)]) + page.lacing + page.body
    return head + struct.pack('<I', checksum(head + bytes(4) + rest)) + rest


def lacing_of(packet):
    return b'\xff' * (len(packet) // 255) + bytes([len(packet) % 255])


def packets_of(page, held=None):
    """The packets that end on a page, and the bytes of the one that goes on, None if none does.

    `held` is what earlier pages have of the first packet.
    """
    packets, at = [], 0
    for value in page.lacing:
        held = (held or b'') + page.body[at:at + value]
        at += value
        if value < 255:
            packets.append(held)
            held = None
    return packets, held
