#!/usr/bin/env python3
"""A small picture for a comment header: a PNG of grey noise, as large as it is wide, on standard output.

usage: tests/streams/picture.py WIDTH
"""
import random
import struct
import sys
import zlib


def chunk(name, data):
    return struct.pack('>I', len(data)) + name + data + struct.pack('>I', zlib.crc32(name + data))


width = int(sys.argv[1])
chance = random.Random(width)
rows = b''.join(b'\0' + bytes(chance.randrange(256) for _ in range(width)) for _ in range(width))
sys.stdout.buffer.write(b'\x89PNG\r\n\x1a\n' + chunk(b'IHDR', struct.pack('>IIBBBBB', width, width, 8, 0, 0, 0, 0))
                        + chunk(b'IDAT', zlib.compress(rows)) + chunk(b'IEND', b''))
