"""Runs of `embulgri` that are stopped part way, while its output or its input waits; input that fails part way, or comes
in pieces."""
import os
import re
import subprocess
import time
import tty

from programs import EMBULGRI

SECONDS = 10
VERDICTS = b'total ', b'refused '


def wait_until_asleep(process):
    """Waits until a process has slept for a while, as it does where a pipe is full or empty."""
    asleep, end = 0, time.monotonic() + SECONDS
    while asleep < 5 and time.monotonic() < end:
        with open(f'/proc/{process}/stat', encoding='utf-8', errors='replace') as file:
            asleep = asleep + 1 if file.read().rsplit(')')[1].split()[0] == 'S' else 0
        time.sleep(0.005)


def shortened(path, data, size):
    """What is printed and said, and the status, where a file is cut to a size while its listing waits to be written."""
    path.write_bytes(data)
    command = [EMBULGRI, 'list', path]
    with subprocess.Popen(command, bufsize=0, stdout=subprocess.PIPE, stderr=subprocess.PIPE) as child:
        first = child.stdout.read(1)
        wait_until_asleep(child.pid)
        os.truncate(path, size)
        rest, message = child.communicate(timeout=SECONDS)
        return first + rest, message, child.returncode


def write_in_pieces(writing, data, size):
    """Writes to a descriptor so many bytes at a time, and closes it."""
    with open(writing, 'wb', buffering=0) as file:
        try:
            for at in range(0, len(data), size):
                file.write(data[at:at + size])
                time.sleep(0.0005)
        except BrokenPipeError:
            pass                        # the program had read what it needs


def failing_after(data):
    """A descriptor that gives these bytes, at most a few thousand, and then fails: a terminal whose other side is gone."""
    reading, writing = os.openpty()
    tty.setraw(writing)
    os.write(writing, data)
    os.close(writing)
    return reading


def memory_of(data):
    """The peak memory, in KiB, of listing this from a pipe that is still open when all of it is read."""
    with subprocess.Popen([EMBULGRI, 'list'], stdin=subprocess.PIPE, stdout=subprocess.DEVNULL) as child:
        child.stdin.write(data)
        child.stdin.flush()
        wait_until_asleep(child.pid)
        with open(f'/proc/{child.pid}/status', encoding='utf-8') as file:
            return int(re.search(r'VmHWM:\s*(\d+) kB', file.read())[1])


def own_memory_of(*words):
    """The memory, in KiB and without what is mapped of a file, that the program has while it waits to write its output,
    which is longer than a pipe holds."""
    with subprocess.Popen([EMBULGRI, *words], bufsize=0, stdout=subprocess.PIPE) as child:
        child.stdout.read(1)
        wait_until_asleep(child.pid)
        with open(f'/proc/{child.pid}/status', encoding='utf-8') as file:
            return int(re.search(r'RssAnon:\s*(\d+) kB', file.read())[1])
