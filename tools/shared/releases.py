"""Releases as a what-if: after each so many lines of calls of a trace a line `r`, of the thread of the line before."""
import collections
import re

from .ends import Stop

MOST_LINES = 1000000            # of a trace
MOST_PAGES = 1048576            # of a line `r`
CALLS = (b'a ', b'f ', b'r ', b'd ', b'z ')
NUMBER = re.compile('[1-9][0-9]{0,8}', re.ASCII)

# After each so many lines of calls a release of so many pages.
Releases = collections.namedtuple('Releases', 'lines pages')


def of(word):
    """The releases that a word L/N asks for, or one line that says what it must be."""
    fields = word.split('/')
    if len(fields) == 2 and all(map(NUMBER.fullmatch, fields)):
        releases = Releases(*map(int, fields))
        if releases.lines <= MOST_LINES and releases.pages <= MOST_PAGES:
            return releases
    raise Stop('release %r is none: wanted is L/N, of L lines of calls from 1 to %d and N pages from 1 to %d'
               % (word, MOST_LINES, MOST_PAGES))


def line(thread, releases):
    """The line that is added, of this thread."""
    return 'r %d %d' % (thread, releases.pages)


def added(data, releases):
    """A good trace, as bytes, with these releases in it; as it is if they are None. Lines that are added don't count as
    lines of calls, nor do heads and lines `p`."""
    if releases is None:
        return data
    lines, calls = [], 0
    for each in data.split(b'\n'):
        lines.append(each)
        if each[:2] not in CALLS:
            continue
        calls += 1
        if calls % releases.lines == 0:
            lines.append(b'r %s %d' % (each.split(b' ')[1].rstrip(b'\r'), releases.pages))
    return b'\n'.join(lines)
