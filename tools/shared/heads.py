"""The heads of a trace, as the table in docs/FORMATS.md has them: the least and the greatest value of each, and its default."""
import collections
import os
import re

FORMATS = os.path.join(os.path.dirname(os.path.dirname(os.path.dirname(os.path.realpath(__file__)))), 'docs', 'FORMATS.md')
ROW = re.compile(r'(?m)^\| `(\w+) N` \| (\d+) to (\d+) \| (\d+) \|')

Head = collections.namedtuple('Head', 'least most default')
with open(FORMATS, encoding='utf-8') as file:
    HEADS = {name: Head(*map(int, numbers)) for name, *numbers in ROW.findall(file.read())}
