"""A run over time by the built program: in `serial` a prefix of a trace is a trace, and its summary what stood then."""
import array
import collections

from . import program
from .ends import Stop
from .heads import HEADS

CALLS = (b'a ', b'f ', b'r ', b'd ', b'z ')
MOST_POINTS = 20000
EVEN_PART = 0.6                 # of the points; the others are laid around the greatest of them

# What stood behind so many calls (its position), of which the last one stands in this line of the trace.
Point = collections.namedtuple('Point', 'position line blocks live used resident frag nones covered rows')


class Trace:
    """A trace as bytes, with the line and the end of each call."""

    def __init__(self, data):
        self.data = data
        self.lines, self.ends = array.array('L'), array.array('L')
        end = 0
        for number, line in enumerate(data.split(b'\n'), 1):
            end = min(end + len(line) + 1, len(data))
            if line[:2] in CALLS:
                self.lines.append(number)
                self.ends.append(end)

    def calls(self):
        return len(self.lines)

    def prefix(self, calls):
        """The trace of its first so many calls."""
        return memoryview(self.data)[:self.ends[calls - 1] if calls else 0]

    def hugepages(self):
        """The last head `huge`, or the usual number. One that is none is for the program to refuse."""
        huge = HEADS['huge'].default
        for line in self.data.split(b'\n'):
            word, _, number = line.rstrip(b'\r').partition(b' ')
            if not word.isalpha() or len(word) == 1:
                break
            if word == b'huge' and number.isdigit() and len(number) < 5:
                huge = min(int(number), HEADS['huge'].most)
        return huge

    def lines_in_all(self):
        return self.data.count(b'\n') + (not self.data.endswith(b'\n') and bool(self.data))


class Answers:
    """What each call of a text was answered, as numbers behind each: live bytes, and requests that got nothing."""

    def __init__(self, text, calls):
        self.live, self.nones = array.array('q'), array.array('L')
        self.first_none = None
        self.length, self.bytes, self.count = {}, 0, 0
        try:
            for number, line in enumerate(text.split(b'\n', calls)[:calls]):
                self.add(number, line.split(b' '))
        except (ValueError, LookupError):
            raise Stop('what was run isn\'t tcreplay: it prints something else') from None

    def add(self, number, fields):
        if fields[0] == b'a':
            if fields[3] == b'none':
                self.count += 1
                self.first_none = number if self.first_none is None else self.first_none
            else:
                self.length[fields[2]] = int(fields[4])
                self.bytes += self.length[fields[2]]
        elif fields[0] == b'f' and fields[3] != b'none':
            self.bytes -= self.length.pop(fields[2])
        self.live.append(self.bytes)
        self.nones.append(self.count)


def checked_summary(text, calls):
    """The summary of a trace's whole run, which has so many calls."""
    summary = program.summary_of(text)
    if summary.calls != calls:
        raise Stop('what was run isn\'t tcreplay: it tells of %d calls, and the trace has %d' % (summary.calls, calls))
    return summary


class Series:
    """The points of a run. Each is the program's own summary of a prefix."""

    def __init__(self, built, words, trace, many, nodes=1):
        self.built, self.words, self.trace = built, words, trace
        self.many = many        # runs at a time
        self.keep = program.tail_bytes(nodes * trace.hugepages())
        self.points = {}

    def whole(self):
        """The whole text, told call by call."""
        done = program.checked(program.run(self.built, self.words, self.trace.data))
        summary = checked_summary(done.text[-self.keep:], self.trace.calls())
        self.answers = Answers(done.text, self.trace.calls())
        self.note(self.trace.calls(), summary)
        return self.answers

    def point(self, calls):
        done = program.checked(program.run(self.built, self.words, self.trace.prefix(calls), self.keep))
        return program.summary_of(done.text)

    def note(self, calls, summary):
        used = sum(row.used for row in summary.rows)
        whole = sum(row.used for row in summary.rows if row.backed == program.PAGES)
        line = self.trace.lines[calls - 1] if calls else 0
        nones = self.answers.nones[calls - 1] if calls else 0
        self.points[calls] = Point(calls, line, summary.blocks, summary.live, summary.used, summary.resident,
                                   summary.frag, nones, whole / used if used else None, summary.rows)

    def look_at(self, wanted, progress=None):
        wanted = sorted(set(wanted) - set(self.points))
        for calls, summary in program.side_by_side(self.point, wanted, self.many, progress):
            self.note(calls, summary)

    def look_at_all(self, progress):
        if self.trace.calls() > MOST_POINTS:
            raise Stop('%d calls are too many to look at all of them; the most are %d'
                       % (self.trace.calls(), MOST_POINTS))
        self.look_at(range(1, self.trace.calls() + 1), progress)

    def look_at_some(self, number, progress=None):
        """So many points at most: even ones and the one with most live bytes, and then some on both sides of the
        greatest, again and again."""
        calls = self.trace.calls()
        even = min(calls, max(1, int(number * EVEN_PART)))
        most_live = max(range(calls), key=self.answers.live.__getitem__, default=-1) + 1
        self.look_at([calls * place // even for place in range(1, even + 1)] + [most_live], progress)
        while len(self.points) < number:
            wanted = self.around_greatest(min(4 * self.many, number - len(self.points)))
            if not wanted:
                return
            self.look_at(wanted, progress)

    def around_greatest(self, number):
        """Up to so many calls between the greatest point and its neighbours."""
        known = sorted(self.points)
        place = known.index(self.greatest().position)
        first = known[place - 1] if place else 0
        last = known[min(place + 1, len(known) - 1)]
        between = [calls for calls in range(first + 1, last) if calls not in self.points]
        return between[::max(1, -(-len(between) // number))]

    def greatest(self):
        """Of the points with most resident pages the first."""
        return max(self.points.values(), key=lambda point: (point.resident, -point.position), default=None)

    def sorted(self):
        return [self.points[calls] for calls in sorted(self.points)]
