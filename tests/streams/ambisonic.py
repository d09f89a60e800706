#!/usr/bin/env python3
"""Encodes sound by libopusenc to an Ogg Opus stream of a mapping family that opusenc has no option for.

usage: tests/streams/ambisonic.py FAMILY CHANNELS BITS SOUND STREAM
SOUND is a file of raw 16-bit samples at 48 kHz; STREAM is the file that is written, at BITS bits in a second.
"""
import ctypes
import sys

SET_BITRATE = 4002                      # OPUS_SET_BITRATE_REQUEST


def must(answer):
    if answer != 0:
        sys.exit(f'libopusenc answers {answer}')


family, channels, bits = map(int, sys.argv[1:4])
with open(sys.argv[4], 'rb') as file:
    sound = file.read()
library = ctypes.CDLL('libopusenc.so.0')
library.ope_comments_create.restype = library.ope_encoder_create_file.restype = ctypes.c_void_p
comments = ctypes.c_void_p(library.ope_comments_create())
error = ctypes.c_int()
encoder = ctypes.c_void_p(library.ope_encoder_create_file(sys.argv[5].encode(), comments, 48000, channels, family,
                                                          ctypes.byref(error)))
must(error.value)
must(library.ope_encoder_ctl(encoder, SET_BITRATE, ctypes.c_int(bits)))
must(library.ope_encoder_write(encoder, sound, len(sound) // (2 * channels)))
must(library.ope_encoder_drain(encoder))
library.ope_encoder_destroy(encoder)
library.ope_comments_destroy(comments)
