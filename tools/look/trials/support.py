"""What the tests of the pages stand on: running a tool, comparing, and one trace that is worked out by hand."""
import csv
import os
import subprocess
import sys

LOOK = os.path.dirname(os.path.dirname(os.path.realpath(__file__)))
TOP = os.path.dirname(os.path.dirname(LOOK))
sys.path.insert(0, os.path.dirname(LOOK))

BUILT = os.path.join(TOP, 'crates', 'tcreplay', 'out', 'tcreplay')
PROGRAM = os.environ.get('TCREPLAY_PROGRAM') or BUILT
EXAMPLES = os.path.join(TOP, 'examples')
TOY = os.path.join(EXAMPLES, 'T0.csv')
SECONDS = 240

problems = []


class Missing(Exception):
    """A part that a test stands on isn't there."""


def same(what, came, wanted):
    if came != wanted:
        problems.append('%s: wanted %r, came %r' % (what, wanted, came))


def words_of(name, *words):
    """The words of a tool, on the program that is tested unless they name another."""
    own = [] if '--program' in words else ['--program', PROGRAM]
    return [os.path.join(LOOK, name), *words, *own]


def run(words, **more):
    """Status, standard output and standard error."""
    done = subprocess.run(words, stdin=subprocess.DEVNULL, stdout=subprocess.PIPE, stderr=subprocess.PIPE, text=True,
                          timeout=SECONDS, **more)
    return done.returncode, done.stdout, done.stderr


def tool(name, *words, **more):
    return run(words_of(name, *words), **more)


def looked(folder, trace, *words):
    """What look says of a trace. Its page is FOLDER/w.html, and its tables are in FOLDER/csv."""
    return tool('look', trace, '--into', folder + '/w.html', '--csv', folder + '/csv', *words)


def started(name, *words):
    return subprocess.Popen(words_of(name, *words), stdout=subprocess.PIPE, stderr=subprocess.PIPE, text=True)


def ended(running):
    text, errors = running.communicate(timeout=SECONDS)
    return running.returncode, text, errors


def served(what, result):
    """A tool ended with status 0 and nothing to say."""
    same(what, (result[0], result[2]), (0, ''))


def one_line(what, result, status, *wanted):
    """A tool ended with this status, one line that has these words, and nothing on standard output."""
    same(what + ': status', result[0], status)
    same(what + ': standard output', result[1], '')
    same('%s: lines in %r' % (what, result[2]), (result[2].count('\n'), result[2].endswith('\n')), (1, True))
    for word in wanted:
        same('%s: %r in %r' % (what, word, result[2]), word in result[2], True)


def write(path, text):
    with open(path, 'w') as file:
        file.write(text)
    return path


def rows_of(path):
    with open(path, newline='') as file:
        return list(csv.DictReader(file))


def columns(rows, *names):
    return [[row[name] for name in names] for row in rows]


# Under T0, whose class 0 has objects of 16 bytes, a batch of 4 and spans of one page:
# call 1 misses everywhere, so hugepage 1 becomes a filler and is backed whole. Its first page is a span; the object at
#   2097152 is the answer, and the three behind it go to the slab, whose capacity is then 4.
# call 2 takes the hugepages 2 and 3 whole: 3 hugepages are backed.
# call 3 gives them back. At most one free one stays backed, so 2 hugepages are.
# call 4 takes 13 pages of hugepage 1, behind the span.
WORKED = 'cache 1\na 0 0 10\na 0 1 4194304\nf 0 1\na 0 2 100000\n'

# Call 1: In, Begin, Header, Test (empty), Grow, Fetch, NewSpan, SetSpan, AddFetch, and at the CPU Begin, Header, Test,
# three Copy and Commit, and Publish. Calls 2 and 4: New, Set, Publish. Call 3: Take, Lookup, Clear, GiveBack.
WORKED_ACTS = 17 + 3 + 4 + 3


def worked(folder):
    return write(folder + '/worked.trace', WORKED)
