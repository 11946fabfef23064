"""A trace under other heads and with releases: what is run in its place, and which of its own lines each line of that is."""
from shared import releases
from shared.heads import HEADS

MOST_LINES = releases.MOST_LINES
COUNTING = 'events'             # the head by which acts are counted
RELEASE, NONE = 'release', 'none'


def heads_end(data):
    """Where the heads of a trace end."""
    end = 0
    for line in data.split(b'\n'):
        word = line.split(b' ')[0]
        if len(word) < 2 or not word.isalpha():
            break
        end = min(end + len(line) + 1, len(data))
    return end


def lines_in(data):
    return data.count(b'\n') + (not data.endswith(b'\n') and bool(data))


def head_lines(data):
    lines = data[:heads_end(data)].split(b'\n')
    return lines[:-1] if lines[-1] == b'' else lines


def own_values(data):
    """The value of each head that a trace has, or else its default. One that isn't a number is as it stands."""
    values = {name: str(head.default) for name, head in HEADS.items()}
    for line in head_lines(data):
        name, _, value = line.rstrip(b'\r').decode(errors='replace').partition(' ')
        if name in values:
            values[name] = value
    return values


def left_out_for(data, names):
    """How many of a trace's last lines are left out, so that it has room for these heads and the one that counts acts."""
    own = {line.split(b' ')[0].decode(errors='replace') for line in head_lines(data)}
    added = len({*names, COUNTING} - {RELEASE} - own)
    lines = lines_in(data)
    return max(0, lines + added - MOST_LINES) if lines <= MOST_LINES else 0


class Changed:
    """A trace under these heads. One of a name that it has stands in the place of the last of them, others after its heads.
    A value of `release` is L/N or none."""

    def __init__(self, data, heads, left_out=0):
        end = heads_end(data)
        self.lines, self.named = head_lines(data), {}
        self.own_heads = len(self.lines)
        asked = dict(heads)
        word = asked.pop(RELEASE, NONE)
        self.release = None if word == NONE else releases.of(word)
        for name, value in asked.items():
            self.put(name, value)
        self.rest = without_last(data[end:], left_out)

    def put(self, name, value):
        own = [place for place in range(self.own_heads) if self.lines[place].split(b' ')[0] == name.encode()]
        line = b'%s %s' % (name.encode(), value.encode())
        if own:
            self.lines[own[-1]] = line
        else:
            self.lines.append(line)
        self.named[own[-1] + 1 if own else len(self.lines)] = '%s=%s' % (name, value)

    def data(self):
        return b''.join(line + b'\n' for line in self.lines) + releases.added(self.rest, self.release)

    def own_line(self, line):
        """The trace's own line that this one is; of a head that was asked for its word; of a release the line before it."""
        if line in self.named:
            return self.named[line]
        place = line - len(self.lines)
        return line if place <= 0 else self.own_heads + own_place(self.rest, self.release, place)


def without_last(data, count):
    """Lines without the last so many."""
    if count == 0:
        return data
    lines = data.removesuffix(b'\n').split(b'\n')[:-count]
    return b''.join(line + b'\n' for line in lines)


def own_place(data, release, place):
    """Which of these lines is the one at that place after the releases were added."""
    if release is None:
        return place
    passed = calls = number = 0
    for number, line in enumerate(data.split(b'\n'), 1):
        passed += 1
        if line[:2] in releases.CALLS:
            calls += 1
            passed += calls % release.lines == 0
        if passed >= place:
            break
    return number
