"""Reading of traces and orders, line by line and rule by rule."""
import collections

from .lines import MOST_LINES, fields_of, number
from .refusal import refused_line, refused_pick
from .tables import Class, read_table

__all__ = ['Class', 'Call', 'HEADS', 'LIMITS', 'read_order', 'read_table', 'read_trace']

HEADS = {'cpus': 1, 'threads': 1, 'huge': 64, 'cache': 8, 'region': 512, 'slack': 8192, 'transfer': 64, 'slab': 2048,
         'percpu': 1572864, 'events': 40000000, 'window': 0, 'domains': 0}
LIMITS = {'cpus': (1, 64), 'threads': (1, 64), 'huge': (1, 4096), 'cache': (0, 4096), 'region': (2, 512),
          'slack': (0, 1048576), 'transfer': (0, 4096), 'slab': (1, 2048), 'percpu': (0, 268435456),
          'events': (1, 40000000), 'window': (0, 65536), 'domains': (0, 64)}
PLACE, LABEL = (0, 65535), (0, 999999)          # of a thread, a CPU or a class, and of a label
# The numbers behind each word of a line that is no head; and which of them is a CPU, and which a class.
NUMBERS = {'a': (PLACE, LABEL, (0, 1 << 40)), 'f': (PLACE, LABEL), 'p': (PLACE, (1, 1000000), PLACE),
           'r': (PLACE, (0, 1048576)), 'd': (PLACE, PLACE), 'z': (PLACE, PLACE, PLACE, (0, 1000000))}
CPU = {'p': 2, 'd': 1, 'z': 1}
CLASS = {'z': 2}
VALUES = {**{head: (limits,) for head, limits in LIMITS.items()}, **NUMBERS}

MOST_PICKS = 40000000
MOST_PICKS_OF_A_LINE = 1000000

Call = collections.namedtuple('Call', 'word thread numbers move line')   # a move is (I, C) of a `p` line, or None


class Lines:
    """What the lines of a trace say so far. A call's move is that of its thread's last `p` line since the call before."""

    def __init__(self, classes):
        self.classes = classes
        self.heads, self.calls, self.moves = dict(HEADS), [], {}
        self.are_late = False               # whether a line was no head
        self.allocated, self.freed = set(), set()

    def numbers_of(self, line, word, fields):
        """The numbers of a line that fails none of the rules up to that on numbers."""
        if line > MOST_LINES:
            raise refused_line(line, 'Lines')
        if word not in VALUES:
            raise refused_line(line, 'Word')
        if self.are_late and word in HEADS:
            raise refused_line(line, 'HeadLate')
        limits = VALUES[word]
        if len(fields) != len(limits):
            raise refused_line(line, 'Fields')
        numbers = [number(field, least, most) for field, (least, most) in zip(fields, limits)]
        if None in numbers:
            raise refused_line(line, 'Number')
        return numbers

    def broken_rule(self, word, numbers):
        """The first of the rules on what the numbers name that a line fails, or None."""
        if numbers[0] >= self.heads['threads']:
            return 'Thread'
        if word in CPU and numbers[CPU[word]] >= self.heads['cpus']:
            return 'Cpu'
        if word in CLASS and numbers[CLASS[word]] >= self.classes:
            return 'Class'
        if word == 'a' and numbers[1] in self.allocated:
            return 'LabelUsed'
        if word == 'f' and numbers[1] not in self.allocated:
            return 'LabelUnknown'
        if word == 'f' and numbers[1] in self.freed:
            return 'LabelFreed'
        return None

    def add(self, line, word, fields):
        """Takes a line in, or refuses it."""
        numbers = self.numbers_of(line, word, fields)
        if word in HEADS:
            self.heads[word], = numbers
            return
        self.are_late = True
        why = self.broken_rule(word, numbers)
        if why:
            raise refused_line(line, why)
        thread, *rest = numbers
        if word == 'p':
            self.moves[thread] = rest
            return
        if word == 'a':
            self.allocated.add(rest[0])
        if word == 'f':
            self.freed.add(rest[0])
        self.calls.append(Call(word, thread, rest, self.moves.pop(thread, None), line))


def read_trace(text, classes):
    """The heads, and the calls, under so many classes."""
    lines = Lines(classes)
    for line, (word, *fields) in enumerate(fields_of(text), 1):
        lines.add(line, word, fields)
    return lines.heads, lines.calls


def read_pick(line, fields, threads, before):
    """What a line of an order says after so many picks: a thread, and how many of its picks."""
    if line > MOST_LINES:
        raise refused_pick(line, 'Lines')
    if len(fields) > 2:
        raise refused_pick(line, 'Fields')
    thread = number(fields[0], *PLACE)
    count = number(fields[1], 1, MOST_PICKS_OF_A_LINE) if len(fields) == 2 else 1
    if thread is None or count is None:
        raise refused_pick(line, 'Number')
    if thread >= threads:
        raise refused_pick(line, 'Thread')
    if before + count > MOST_PICKS:
        raise refused_pick(line, 'Picks')
    return thread, count


def read_order(text, threads):
    """The picks of an order file, as (thread, how many)."""
    picks, so_far = [], 0
    for line, fields in enumerate(fields_of(text), 1):
        picks.append(read_pick(line, fields, threads, so_far))
        so_far += picks[-1][1]
    return picks
