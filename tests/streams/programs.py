"""Runs the programs under test and the programs that they are held to, and reads what these print."""
import json
import os
import pathlib
import re
import shutil
import subprocess
import sys

ROOT = pathlib.Path(__file__).resolve().parents[2]
LIST = os.environ.get('LIST', str(ROOT / 'target/bin/list'))
TAGS = os.environ.get('TAGS', str(ROOT / 'target/bin/tags'))
EMBULGRI = os.environ.get('EMBULGRI', str(ROOT / 'target/cli/release/embulgri'))
PLAIN = dict(os.environ, LC_ALL='C.UTF-8')


def need(*programs):
    """Ends with one line if a program is not there."""
    for program in programs:
        if not shutil.which(program):
            sys.exit(f'no program {program}')


def run(*command, **options):
    return subprocess.run(command, stdout=subprocess.PIPE, stderr=subprocess.PIPE, env=PLAIN, **options)


def run_on(program, path):
    """What a program prints of a file on its standard input."""
    with open(path, 'rb') as file:
        done = run(program, stdin=file)
    if done.stderr or done.returncode < 0:
        return done.stdout + b'standard error: ' + done.stderr + b'status %d\n' % done.returncode
    return done.stdout


def ffprobe(path):
    """(start, duration, skipped at the start, cut at the end) of each packet, in samples."""
    told = json.loads(run('ffprobe', '-v', 'error', '-of', 'json', '-select_streams', 'a', '-show_entries',
                          'stream=codec_name,time_base:packet=pts,duration'
                          ':packet_side_data=skip_samples,discard_padding', path).stdout)
    assert [tuple(stream.values()) for stream in told['streams']] == [('opus', '1/48000')], path
    packets = []
    for packet in told['packets']:
        side = packet.get('side_data_list', [{}])[0]
        packets.append((packet['pts'], packet['duration'], side.get('skip_samples', 0), side.get('discard_padding', 0)))
    return packets


def opusinfo(path):
    """What opusinfo prints of a file, without its first lines and its warnings; the warnings."""
    told = run('opusinfo', path).stdout
    told = told[told.index(b': type opus\n') + len(b': type opus\n'):]
    warnings = re.findall(rb'^\t?(?:WARNING|ERROR): .*\n', told, re.MULTILINE)
    for warning in warnings:
        told = told.replace(warning, b'')
    return told, [warning.decode().strip() for warning in warnings]
