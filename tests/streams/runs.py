"""Runs of the program `embulgri`, each held to what it must print and say and to its exit status."""
import collections
import signal
import subprocess

import refusals
from pages import cut
from programs import EMBULGRI

SECONDS = 10
DONE, ADVISED, REFUSED, TROUBLE = 0, 1, 2, 3

faults, counts = [], collections.Counter()


def fault(name, text):
    faults.append(f'  WRONG {name}: {text}')


def run(name, *words, **options):
    """What the program prints, its message, and its status; None if it does not end."""
    counts['runs'] += 1
    options = {'stdout': subprocess.PIPE, **options}
    try:
        done = subprocess.run([EMBULGRI, *words], stderr=subprocess.PIPE, timeout=SECONDS, **options)
    except subprocess.TimeoutExpired:
        fault(name, f'still running after {SECONDS} s')
        return None
    return done.stdout or b'', done.stderr, done.returncode


def must(name, words, printed, status, message=b'', **options):
    """A run prints this, ends with this status, and says something, of which the message is a part; nothing where the status
    is 0 or 1 and there is no message."""
    done = run(name, *words, **options)
    if done is None:
        return
    says = status not in (DONE, ADVISED) or message != b''
    if done[0] != printed or done[2] != status or bool(done[1]) != says or message not in done[1]:
        fault(name, f'prints {done[0][-80:]!r}, says {done[1]!r}, status {done[2]}, not {printed[-80:]!r}, '
                    f'{message!r}, {status}')


def must_end_by_pipe(name, done):
    """A run whose output is a closed pipe says nothing, and is ended by a signal."""
    if done and (done[1] or done[2] != -signal.SIGPIPE):
        fault(name, f'status {done[2]} and message {done[1]!r}, not ended by SIGPIPE')


def refusal_due(line, data):
    """What is said of a stream with this line of a refusal: the page's number and place, where it names one, and what the
    number means."""
    _, number, *page = line.split()
    what = 'the stream'
    if page:
        place = sum(map(len, cut(data)[:int(page[1])]))
        what = f'page {page[1]}, which starts at byte {place},'
    return f': {what} is refused by {number}: {refusals.meaning(int(number))}\n'.encode()
