"""The numbers of refusals: their names by docs/RULES.md, 2, and what `embulgri explain` says of them."""
import functools
import re
import subprocess

from programs import EMBULGRI, ROOT


@functools.cache
def names():
    """The name of each number, in the order of the table."""
    section = (ROOT / 'docs/RULES.md').read_text().split('\n## ')[2]
    return {int(number): name for number, name in re.findall(r'^\| (\d+) \| `(\w+)` \|', section, re.MULTILINE)}


@functools.cache
def meaning(number):
    """What the program says after the number and its name, at least a few words."""
    said = subprocess.run([EMBULGRI, 'explain', str(number)], stdout=subprocess.PIPE, check=True).stdout.decode()
    found = re.fullmatch(r'\d+ \w+: (\S+ \S+ .+)\n', said)
    return found[1] if found else 'no meaning'
