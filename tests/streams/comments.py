#!/usr/bin/env python3
"""The headers of an Ogg Opus stream as the program `tags` prints them, an implementation of its own.

usage: tests/streams/comments.py < FILE
"""
import re
import sys

from listing import read

# Characters that are not shown as they are, by their numbers: the backslash, controls, those that cannot be seen or
# that change the order of others, and private use.
HIDDEN = ((0, 0x1f), (0x5c, 0x5c), (0x7f, 0x9f), (0xad, 0xad), (0x61c, 0x61c), (0x180e, 0x180e), (0x200b, 0x200f),
          (0x2028, 0x202e), (0x2060, 0x206f), (0xe000, 0xf8ff), (0xfeff, 0xfeff), (0xfff9, 0xfffb), (0xfffe, 0xffff),
          (0xe0000, 0xe007f), (0xf0000, 0x10ffff))


def shown(text):
    """A text with `\\\\` for a backslash, and `\\xHH` for each byte of any other hidden character."""
    def image(character):
        if character == '\\':
            return '\\\\'
        if any(first <= ord(character) <= last for first, last in HIDDEN):
            return ''.join(f'\\x{byte:02X}' for byte in character.encode())
        return character
    return ''.join(map(image, text.decode()))


def decibels(gain):
    """A gain in 256ths of a decibel (RFC 7845, 5.1), exactly."""
    whole, part = divmod(abs(gain), 256)
    return f'{"-" if gain < 0 else ""}{whole}.{part * 390625:08d} dB'


def comment_line(comment):
    """A comment; after an R128 gain (RFC 7845, 5.2.1) come its decibels."""
    gain = re.fullmatch(rb'(?i:R128_(?:TRACK|ALBUM)_GAIN)=([+-]?[0-9]+)', comment)
    if gain and len(gain[1]) <= 6 and -32768 <= int(gain[1]) <= 32767:
        return f'comment {shown(comment)}\t{decibels(int(gain[1]))}'
    return f'comment {shown(comment)}'


def tags_lines(reader, last):
    """What `tags` prints, of what `read` gives: nothing where the input ends before the comment header does."""
    head, tags = reader.head, reader.tags
    if not tags:
        return f'{last}\n'.encode() if last.startswith('refused ') else b''
    table = ['matrix', *head.matrix] if head.family == 3 else ['mapping', *head.mapping]
    lines = [f'version {head.version}', f'channels {head.channels}', f'preskip {head.pre_skip}', f'rate {head.rate}',
             f'gain {head.gain}\t{decibels(head.gain)}', f'family {head.family}', f'streams {head.streams}',
             f'coupled {head.coupled}', ' '.join(map(str, table)),
             f'vendor {shown(tags.vendor)}', f'comments {len(tags.comments)}', *map(comment_line, tags.comments)]
    return ''.join(line + '\n' for line in lines).encode()


if __name__ == '__main__':
    sys.stdout.buffer.write(tags_lines(*read(sys.stdin.buffer.read())))
