#!/usr/bin/env python3
"""Sound to encode, as raw 16-bit samples at 48 kHz on standard output: a sine in each channel, over noise.

usage: tests/streams/sound.py CHANNELS SAMPLES
The same numbers give the same sound.
"""
import array
import math
import random
import sys

channels, samples = map(int, sys.argv[1:])
chance = random.Random(channels)
noise = [chance.randrange(-900, 900) for _ in range(4801)]
sines = [[int(9000 * math.sin(i * 2 * math.pi * (1 + channel) / 480)) for i in range(480)] for channel in range(channels)]
sound = array.array('h')
for i in range(samples):
    sound.extend(sine[i % 480] + noise[(i + 37 * channel) % 4801] for channel, sine in enumerate(sines))
if sys.byteorder == 'big':
    sound.byteswap()
sys.stdout.buffer.write(sound.tobytes())
