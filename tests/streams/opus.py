"""Opus packets (RFC 6716, 3 and Appendix B) and the two headers of Ogg Opus (RFC 7845, 5; RFC 8486)."""
import struct
from typing import NamedTuple

from pages import refuse

LONGEST_PACKET = 61440
AMBISONIC = {(1 + order) ** 2 + 2 * pairs for order in range(15) for pairs in range(2)}
CHANNELS = {0: range(1, 3), 1: range(1, 9), 2: AMBISONIC, 3: AMBISONIC, 255: range(1, 256)}     # by the family


class Head(NamedTuple):
    version: int
    channels: int
    pre_skip: int
    rate: int
    gain: int
    family: int
    streams: int
    coupled: int
    mapping: bytes
    matrix: tuple


class Tags(NamedTuple):
    vendor: bytes
    comments: list


def frame_samples(toc):
    """Samples at 48 kHz of one frame, by the configuration in a packet's first byte."""
    config = toc >> 3
    if config < 12:
        return (480, 960, 1920, 2880)[config % 4]
    if config < 16:
        return (480, 960)[config % 2]
    return (120, 240, 480, 960)[config % 4]


class Packet:
    """Reads one Opus packet from the start of some bytes; 15 if it is illegal."""

    def __init__(self, data, delimited):
        self.data, self.at = data, 0
        toc = self.byte()
        self.frames, variable, padding = (1, 2, 2, 0)[toc & 3], toc & 3 == 2, 0
        if toc & 3 == 3:
            count = self.byte()
            self.frames, variable = count & 0x3f, bool(count & 0x80)
            padding = self.padding() if count & 0x40 else 0
        self.samples = self.frames * frame_samples(toc)
        refuse(15, self.frames == 0 or self.samples > 5760)
        sizes = [self.coded() for _ in range(self.frames - 1)] if variable else []
        if delimited:
            size = self.coded()
        else:
            room = len(data) - self.at - padding - sum(sizes)
            refuse(15, not variable and room % self.frames)
            size = room if variable else room // self.frames
            refuse(15, not 0 <= size <= 1275)
        self.end = self.at + padding + sum(sizes) + (size if variable else size * self.frames)
        refuse(15, self.end > len(data))

    def byte(self):
        refuse(15, self.at >= len(self.data))
        self.at += 1
        return self.data[self.at - 1]

    def coded(self):
        first = self.byte()
        return first if first < 252 else first + 4 * self.byte()

    def padding(self):
        total = 0
        while (value := self.byte()) == 255:
            total += 254
        return total + value


def read_packet(data, streams):
    """Samples of an audio packet of some streams, and frames of its first Opus packet; all but the last are
    self-delimited."""
    packets = []
    for left in reversed(range(streams)):
        packets.append(Packet(data, left > 0))
        data = data[packets[-1].end:]
    first = packets[0]
    refuse(16, any(packet.samples != first.samples for packet in packets))
    return first.samples, first.frames


def head_size(packet):
    """The bytes that the fields of an identification header take; 12 if it has no counts for a matrix, or if it would
    be longer than a packet."""
    channels, family = packet[9], packet[18]
    if family != 3:
        return 21 + channels if family else 19
    refuse(12, len(packet) < 21)
    size = 21 + 2 * (packet[19] + packet[20]) * channels
    refuse(12, size > LONGEST_PACKET)
    return size


def read_head(packet):
    """The identification header: of a version up to 15, and from 2 on bytes may follow, which nothing reads."""
    refuse(12, len(packet) < 19 or packet[:8] != b'OpusHead')
    version, channels, pre_skip, rate, gain, family = struct.unpack('<BBHIhB', packet[8:19])
    size = head_size(packet)
    refuse(12, version > 15 or len(packet) < size or version < 2 and len(packet) > size)
    refuse(13, channels not in CHANNELS.get(family, ()))
    streams, coupled = packet[19:21] if family else (1, channels - 1)
    refuse(13, streams < 1 or coupled > streams or streams + coupled > 255)
    table = packet[21:size] if family else bytes(range(channels))
    mapping, matrix = (b'', struct.unpack(f'<{len(table) // 2}h', table)) if family == 3 else (table, ())
    refuse(13, any(streams + coupled <= index < 255 for index in mapping))
    return Head(version, channels, pre_skip, rate, gain, family, streams, coupled, mapping, matrix)


def read_tags(packet):
    refuse(14, packet[:8] != b'OpusTags')
    at = 8

    def number():
        nonlocal at
        refuse(14, at + 4 > len(packet))
        at += 4
        return int.from_bytes(packet[at - 4:at], 'little')

    def text():
        nonlocal at
        size = number()
        refuse(14, at + size > len(packet))
        at += size
        refuse(14, not is_utf8(packet[at - size:at]))
        return packet[at - size:at]

    vendor = text()
    comments = [text() for _ in range(number())]
    names = [comment.split(b'=')[0].upper() for comment in comments if b'=' in comment]
    refuse(14, any(not 0x20 <= byte <= 0x7d for name in names for byte in name))
    refuse(14, names.count(b'R128_TRACK_GAIN') > 1 or names.count(b'R128_ALBUM_GAIN') > 1)
    return Tags(vendor, comments)


def is_utf8(text):
    try:
        text.decode('utf-8')
    except UnicodeDecodeError:
        return False
    return True
