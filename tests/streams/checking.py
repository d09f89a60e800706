"""Runs of `embulgri check`, held to check.py and to check_examples.py: what is printed and said, and the status."""
import itertools
import os
import re
import resource
import threading

from check import WORDS, check_lines
from check_examples import examples, headers
from index import text
from made import short_stream, whole
from pages import LAST, cut
from programs import ROOT
from runs import ADVISED, DONE, REFUSED, TROUBLE, counts, fault, must, must_end_by_pipe, refusal_due, run
from salvaging import limited
from stopped import failing_after, own_memory_of, write_in_pieces

EVERY = 4                               # of the streams of tests/program so many share one that is checked
MANY = 24000                            # pages of a long stream, each with a hole: their lines take the program's buffer often
GROWTH = 128                            # KiB by which memory may grow beside 16 bytes a finding

# the sections of RFC 7845 that are told of each kind
SECTIONS = {'unfinished': '3', 'no-end': '3', 'trimmed': '4.4', 'replaygain': '5.2.1', 'hole': '4'}
sentences = {}                          # what was said of each kind


def due(data):
    """What is printed of a stream, and the status and the message that are due."""
    printed = check_lines(data)
    if printed.startswith(b'refused '):
        return printed, REFUSED, refusal_due(printed.decode(), data)
    return printed, DONE if printed == b'accepted\n' else ADVISED, b''


def must_check(name, words, data, **options):
    printed, status, message = due(data)
    must(f'check, {name}', ['check', *words], printed, status, message, **options)
    counts[f'check {status}'] += 1


def kinds_in(printed):
    """The words of the kinds that were found, each once."""
    found = {line.split(' ')[0] for line in printed.decode().splitlines() if ' page ' in line}
    return [word for word in WORDS.values() if word in found]


def must_explain(name, words, data, source, **options):
    """With --explain the same is printed, and one sentence is said for each kind, always the same."""
    name, (printed, status, _) = f'check --explain, {name}', due(data)
    done = run(name, 'check', *words, **options)
    if done is None:
        return
    said = re.findall(rf'embulgri: {re.escape(source)}: ([a-z-]+): (.+)\n', done[1].decode())
    if done[0] != printed or done[2] != status or [word for word, _ in said] != kinds_in(printed):
        fault(name, f'prints {done[0][-80:]!r}, says {done[1]!r}, status {done[2]}, not {printed[-80:]!r}, {status}')
    if len(said) != done[1].count(b'\n'):
        fault(name, f'says more: {done[1]!r}')
    for word, sentence in said:
        right = f'RFC 7845, {SECTIONS.get(word)}, ' in sentence and '. ' not in sentence
        if not right or sentences.setdefault(word, sentence) != sentence:
            fault(name, f'says of {word}: {sentence}')
    counts['checks explained'] += 1


def compare(name, data, path, number):
    """On a stream in a file, or from a pipe, by a number; on one of several streams."""
    if number % EVERY == 0:
        turn = number // EVERY
        words = [[path], ['-'], [path, '--explain'], []][turn % 4]
        if check_lines(data).startswith(b'refused ') or '--explain' not in words:
            must_check(name, words, data, input=data)
        else:
            must_explain(name, words, data, f'"{path}"')


# ---- streams

def run_examples(folder):
    """The streams that are aimed at something, by check.py and by the program."""
    path = folder / 'checked.opus'
    for name, data, lines in examples():
        if check_lines(data) != text(*lines, 'accepted'):
            fault(f'example {name}', f'check.py prints {check_lines(data)!r}, not {lines}')
        path.write_bytes(data)
        must_check(name, [path], data)
        must_check(f'{name}, from a pipe', [], data, input=data)
        must_explain(name, ['--explain', path], data, f'"{path}"')
    if {*sentences} != {*SECTIONS}:
        fault('check --explain', f'has sentences of {[*sentences]}')


def run_damaged(folder):
    """A stream without its last pages, down to none, with or without the last byte before them; its pages, each damaged; and
    others. What is explained is a finding, no refusal."""
    path, drip = folder / 'checked.opus', (ROOT / 'examples/drip.opus').read_bytes()
    for good in short_stream(), drip:
        ends = [0, *itertools.accumulate(map(len, cut(good)))]
        some = [good[:max(end - less, 0)] for end in ends for less in (0, 1)]
        some += [good[:end] + bytes([good[end] ^ 1]) + good[end + 1:] for end in ends[:-1]]
        some += [good * 2, good + b'OggS', b'some text\n', b'\0' * 100]
        for data in some:
            path.write_bytes(data)
            must_check(f'{len(data)} bytes', [path], data)
            if due(data)[1] == REFUSED:
                must('check --explain, refused', ['check', path, '--explain'], *due(data))
            else:
                must_explain(f'{len(data)} bytes', [path, '--explain'], data, f'"{path}"')


def holes_stream(pages):
    """One packet of 120 samples on a page, and one sample missing before each but the first."""
    return headers(*(whole(LAST * (number == pages), 121 * number, b'\xe0') for number in range(1, pages + 1)))


def run_long(folder):
    """More lines than the program's buffer holds, the memory that they take, and one sentence for all of them."""
    path, memories = folder / 'checked.opus', []
    for pages in MANY // 4, MANY:
        data = holes_stream(pages)
        if check_lines(data) != text(*(f'hole page {page}' for page in range(3, pages + 2)), 'accepted'):
            fault('check.py, long', f'prints {check_lines(data)[:80]!r}')
        path.write_bytes(data)
        must_check(f'{pages} pages', [path], data)
        memories.append(own_memory_of('check', path))
    must_explain('long', [path, '--explain'], data, f'"{path}"')
    most = 16 * (MANY - MANY // 4) // 1024 + GROWTH
    if memories[1] - memories[0] > most:
        fault('memory of check', f'grows by {memories[1] - memories[0]} KiB, not {most}')
    print(f'memory of check beside the mapping: {memories[0]} KiB for {MANY // 4} findings, {memories[1]} for {MANY}')


# ---- files

def recording(folder):
    """A file with a stream, and its bytes."""
    path = folder / 'checked.opus'
    path.write_bytes(short_stream())
    return path, short_stream()


def run_inputs(folder):
    """Input from a pipe, in pieces, a named pipe and another place of a file; names of any bytes; the option at any place."""
    path, data = recording(folder)
    for words in [], ['-'], ['--'], ['--', '-']:
        must_check('from a pipe', words, data, input=data)
    for words in ['--explain'], ['-', '--explain'], ['--explain', '-'], ['--explain', '--']:
        must_explain('from a pipe', words, data, 'standard input', input=data)
    for words in [path, '--explain'], ['--explain', path], ['--explain', '--', path]:
        must_explain(f'{words}', words, data, f'"{path}"')
    for size in 1, 7, 1000:
        reading, writing = os.pipe()
        writer = threading.Thread(target=write_in_pieces, args=(writing, data, size))
        writer.start()
        must_check(f'in pieces of {size} bytes', [], data, stdin=reading)
        os.close(reading)
        writer.join()
    os.mkfifo(folder / 'checked.pipe')
    writer = threading.Thread(target=(folder / 'checked.pipe').write_bytes, args=(data,))
    writer.start()
    must_check('from a named pipe', [folder / 'checked.pipe'], data)
    writer.join()
    with open(folder / 'joined', 'w+b') as file:
        file.write(b'drip' * 2000 + data)
        file.seek(8000)
        must_check('after 8000 bytes of standard input', [], data, stdin=file)
    for name in b'two words', b'\xff\xfe', b'line\nfeed', b'--explain', b'-x', b'a\x1b[2J':
        os.rename(path, os.fsencode(folder) + b'/' + name)
        must_check(f'{name}', ['--', name], data, cwd=folder)
        os.rename(os.fsencode(folder) + b'/' + name, path)


def must_fail(name, words, message, **options):
    must(f'check, {name}', ['check', *words], b'', TROUBLE, message, **options)
    counts[f'check {TROUBLE}'] += 1


def run_trouble(folder):
    """Files that are empty, or cannot be read."""
    (folder / 'nothing').write_bytes(b'')
    for words in [folder / 'nothing'], ['/dev/null'], [folder / 'nothing', '--explain']:
        must_check('empty', words, b'')
    must_check('empty standard input', [], b'', input=b'')
    for wrong in folder, folder / 'missing', '', '/proc/self/mem':
        must_fail(f'{wrong}', [wrong], b'cannot read')
        must_fail(f'{wrong}, explained', ['--explain', wrong], b'cannot read')
    must_fail('no standard input', [], b'cannot read', preexec_fn=lambda: os.close(0))
    reading = failing_after(short_stream())
    must_fail('reading fails', [], b'cannot read', stdin=reading)
    os.close(reading)
    with open(folder / 'zeros', 'wb') as file:
        file.truncate(3 << 25)
    must_fail('no memory', [folder / 'zeros'], b'no memory to check', **limited(resource.RLIMIT_AS, 1 << 27))
    (folder / 'zeros').unlink()


def run_arguments(folder):
    """Words that are wrong or too many; the option is of no other command; and what help says."""
    path, data = recording(folder)
    for words in ([path, path], ['-', '-'], [path, '-x'], ['-x', path], [path, '--explain', '--explain'], ['--explain=1', path],
                  ['--explain', '5', path], [path, '--explained'], ['-e', path], [path, '--index', path], [path, '--at', '5'],
                  ['--Explain', path]):
        must_fail(f'arguments {words}', words, b'see embulgri ', input=data)
    for words in ['list', path], ['tags', path], ['index', path], ['seek', path, '5'], ['salvage', path, folder / 'new']:
        must(f'arguments {words}', [*words, '--explain'], b'', TROUBLE, b'unknown option')
    for words in ['--help'], ['check', '--help'], ['check', path, '--explain', '-h']:
        done = run('help', *words)
        if not done or done[1:] != (b'', DONE) or b'embulgri check [FILE] [--explain]' not in done[0]:
            fault(f'{words}', f'does not say enough of check: {done}')


def run_unprinted(folder):
    """Standard output fails: then nothing is explained."""
    path, _ = recording(folder)
    long, refused = folder / 'long.opus', folder / 'refused.opus'
    long.write_bytes(holes_stream(MANY // 2))
    refused.write_bytes(short_stream()[:-1])
    for words in [path], [path, '--explain'], [refused], [long], [long, '--explain'], ['/dev/null']:
        with open('/dev/full', 'wb') as full:
            for options in {'stdout': full}, {'preexec_fn': lambda: os.close(1)}:
                must_fail('no output', words, b'cannot write', **options)
                done = run('check, no output', 'check', *words, **options)
                if done and done[1].count(b'\n') != 1:
                    fault('check, no output', f'says {done[1]!r}')
        reading, writing = os.pipe()
        os.close(reading)
        must_end_by_pipe('check, closed pipe', run('check, closed pipe', 'check', *words, stdout=writing))
        os.close(writing)


def run_all(folder):
    run_arguments(folder)
    run_examples(folder)
    run_damaged(folder)
    run_inputs(folder)
    run_trouble(folder)
    run_long(folder)
    run_unprinted(folder)
