"""Long traces of calls, large and small, judged by rules that stand here."""
import bisect
import re
import sys
import time

from checks.program import EXAMPLES, HUGE, ORDER, PAGE, SERIAL, SMALL_TABLE, differences, read, run
from checks.stored import shown

# The large trace: 500,000 allocations of more than 8 and at most 64 KiB, each freed later, of which
# at most 1,000 are live at a time. Each gets a block: a hugepage without 8 adjacent free pages has at
# least 28 runs, of 2 pages or more and with at most 7 between them, so 64 of them have more than 1,000.

def draws():
    """Numbers below 32768, from a small linear congruential generator."""
    x = 1
    while True:
        x = (x * 1103515245 + 12345) % 2147483648
        yield x // 65536


def large_calls(count, most_live):
    """The calls: (label, size) for an allocation, and (label, None) for its free."""
    draw = draws()
    live = []
    label = 0
    while label < count or live:
        wants_more = label < count and len(live) < most_live and next(draw) % 8 < 5
        if wants_more or not live:
            size = PAGE + 1 + (next(draw) * 32768 + next(draw)) % (7 * PAGE)
            live.append(label)
            yield label, size
            label += 1
        else:
            place = next(draw) % len(live)
            live[place], live[-1] = live[-1], live[place]
            yield live.pop(), None


def check_large_lines(calls, lines):
    """What is wrong with the call lines: the first block that overlaps another, leaves the arena or
    has another length, or the first free that answers another address."""
    owner = {}
    blocks = {}
    for (label, size), line in zip(calls, lines):
        word = b'f' if size is None else b'a'
        head = b'%s 0 %d ' % (word, label)
        if not line.startswith(head):
            return ['line %r where %r is due' % (line, head)]
        if size is None:
            wanted = blocks.pop(label)
            for page in range(wanted[0] // PAGE, (wanted[0] + wanted[1]) // PAGE):
                del owner[page]
            if line != head + b'%d' % wanted[0]:
                return ['line %r frees another block than that at %d' % (line, wanted[0])]
            continue
        match = re.fullmatch(rb'(\d+) (\d+)', line[len(head):])
        if match is None:
            return ['line %r is no block' % line]
        addr, length = int(match[1]), int(match[2])
        if length != (size + PAGE - 1) // PAGE * PAGE or addr % PAGE != 0:
            return ['line %r for a request of %d bytes' % (line, size)]
        if addr < HUGE or addr + length > 65 * HUGE:
            return ['line %r is outside the arena' % line]
        for page in range(addr // PAGE, (addr + length) // PAGE):
            if page in owner:
                return ['line %r overlaps the block of label %d' % (line, owner[page])]
            owner[page] = label
        blocks[label] = (addr, length)
    return []


def large_trace():
    calls = list(large_calls(500000, 1000))
    trace = b''.join(b'f 0 %d\n' % label if size is None else b'a 0 %d %d\n' % (label, size)
                     for label, size in calls)
    begun = time.monotonic()
    status, stdout, stderr = run(SERIAL, trace, {b'T0.csv': SMALL_TABLE})
    print('large_trace: %.1f s' % (time.monotonic() - begun), file=sys.stderr)
    if status != 0 or stderr != b'':
        return differences((status, b'', stderr), 0, b'')
    lines = stdout.split(b'\n')
    if len(lines) != len(calls) + 6 or lines[-1] != b'':
        return ['%d lines in place of %d' % (len(lines) - 1, len(calls) + 5)]
    wrong = check_large_lines(calls, lines)
    # All is freed at the end, so the resident hugepages are free ones: 1 to 8, by the cache's limit.
    resident = [b'resident %d' % (256 * huge) for huge in range(1, 9)]
    summary = lines[-6:-1]
    if summary[3] not in resident:
        wrong.append('%r is no resident line of 1 to 8 hugepages' % summary[3])
    wanted = [b'calls %d' % len(calls), b'live 0 0', b'used 0', summary[3], b'frag 1000']
    if summary != wanted:
        wrong.append('summary %r in place of %r' % (summary, wanted))
    return wrong


# Small objects among all other calls.

OBJECT_TABLE = read(EXAMPLES, 'T1.csv')


def rounded(size, sizes):
    """The length of a block for a request: the least of these classes' sizes that holds it, or whole pages."""
    return next((each for each in sizes if each >= size), -(-size // PAGE) * PAGE)


class Blocks:
    """The blocks that stand, by label and in the order of their addresses."""

    def __init__(self):
        self.of = {}
        self.firsts = []
        self.ends = {}

    def add(self, label, first, length):
        """Whether the block meets none that stands."""
        place = bisect.bisect(self.firsts, first)
        apart = (place == 0 or self.ends[self.firsts[place - 1]] <= first) and (
            place == len(self.firsts) or first + length <= self.firsts[place])
        self.firsts.insert(place, first)
        self.ends[first] = first + length
        self.of[label] = first
        return apart

    def remove(self, label):
        first = self.of.pop(label)
        if first is not None:
            del self.firsts[bisect.bisect_left(self.firsts, first)]
            del self.ends[first]
        return first

    def bytes(self):
        return sum(end - first for first, end in self.ends.items())


def wrong_call(words, answer, blocks, sizes, top):
    """What is wrong with the answer to a call, by the blocks that stand before it."""
    if words[0] == b'a':
        label, length = words[2], rounded(int(words[3]), sizes)
        if answer == [b'none']:
            blocks.of[label] = None
        elif len(answer) != 2 or int(answer[1]) != length:
            return 'it has another length than %d' % length
        elif not (HUGE <= int(answer[0]) and int(answer[0]) + length <= top):
            return 'it is not in the arena'
        elif not blocks.add(label, int(answer[0]), length):
            return 'it meets another block'
    elif words[0] == b'f':
        first = blocks.remove(words[2])
        if answer != [b'none' if first is None else b'%d' % first]:
            return 'it frees another address than %s' % first
    elif words[0] == b'r':
        if len(answer) != 1 or not answer[0].isdigit():
            return 'it tells no number of pages'
    elif words[0] == b'd':
        if len(answer) != 2 or answer[0] not in (b'ok', b'busy'):
            return 'it is no answer to a drain'
    elif answer[0] not in (b'ok', b'busy', b'overstatic', b'overlimit'):
        return 'it is no answer to a resize'
    return None


def wrong_text(calls, text, table, huge):
    """What is wrong with the text of a run: its lines are the calls of each thread in their order, every one of
    them once, blocks that stand don't meet, and the summary has their number and bytes."""
    scripts = {}
    for call in calls:
        scripts.setdefault(call[1], []).append(call)
    due = {thread: iter(script) for thread, script in scripts.items()}
    sizes = [int(row.split(b',')[0]) for row in table.split()]
    blocks = Blocks()
    lines = text.split(b'\n')
    for line in lines[:-6]:
        words = line.split(b' ')
        call = next(due.get(words[1], iter(())), None)
        shown = call[:3] if call and call[0] == b'a' else call[:2] if call and call[0] == b'r' else call
        if call is None or words[:len(shown)] != shown:
            return ['%r is not the next call of its thread' % line]
        wrong = wrong_call(call, words[len(shown):], blocks, sizes, (huge + 1) * HUGE)
        if wrong:
            return ['%r: %s' % (line, wrong)]
    if any(next(rest, None) for rest in due.values()):
        return ['not every call came']
    wanted = [b'calls %d' % len(calls), b'live %d %d' % (len(blocks.firsts), blocks.bytes())]
    return [] if lines[-6:-4] == wanted else ['summary %r in place of %r' % (lines[-6:-4], wanted)]


def mixed_line(draw, thread, live, label):
    """A call of a thread, and the next label that is new."""
    kind = next(draw) % 1000
    if kind < 2:
        return [b'd', thread, b'%d' % (next(draw) % 4)], label
    if kind < 4:
        return [b'z', thread, b'%d' % (next(draw) % 4), b'%d' % (next(draw) % 16), b'%d' % (next(draw) % 2200)], label
    if kind < 6:
        return [b'r', thread, b'%d' % (next(draw) % 300)], label
    if len(live) == 20000 or (live and kind < 440):
        return [b'f', thread, b'%d' % live.pop(next(draw) % len(live))], label
    size = next(draw) * 8 if kind < 460 else (8 << next(draw) % 10) + next(draw) % 8
    live.append(label)
    return [b'a', thread, b'%d' % label, b'%d' % size], label + 1


def every_kind_of_call():
    """The most lines of all kinds, of 8 threads at 4 CPUs, in serial."""
    draw = draws()
    lines, calls, live, label = [b'threads 8', b'cpus 4', b'huge 1024', b'percpu 65536', b'domains 2'], [], [], 0
    while len(lines) < 1000000:
        thread = b'%d' % (next(draw) % 8)
        if next(draw) % 50 == 0:
            lines.append(b'p %s %d %d' % (thread, 1 + next(draw) % 11, next(draw) % 4))
        else:
            call, label = mixed_line(draw, thread, live, label)
            calls.append(call)
            lines.append(b' '.join(call))
    begun = time.monotonic()
    status, stdout, stderr = run(SERIAL, b'\n'.join(lines) + b'\n', {b'T0.csv': OBJECT_TABLE})
    print('every_kind_of_call: %.1f s' % (time.monotonic() - begun), file=sys.stderr)
    if status != 0 or stderr != b'':
        return differences((status, b'', stderr), 0, b'')
    return wrong_text(calls, stdout, OBJECT_TABLE, 1024)


# Two threads at one CPU, which each have a miss, a hit, a push, and a push that finds no room; and a third one that
# drains the CPU.
CUT = [line.split(b' ') for line in (
    b'a 0 0 10', b'a 1 1 10', b'a 0 2 10', b'a 1 3 10', b'f 0 1', b'f 1 0', b'a 0 4 64', b'd 2 0', b'f 0 3', b'f 1 2',
    b'a 1 5 10', b'd 2 0', b'f 0 5', b'f 1 4')]


def cut_at_each_instruction():
    """Each thread is cut off after every few acts by the other, with drains between: all calls come all the same."""
    trace = b'threads 3\npercpu 64\ntransfer 2\n' + b''.join(b' '.join(call) + b'\n' for call in CUT)
    wrong = []
    for first in range(1, 36):
        for second in (1, 2, 5, 11):
            order = b'0 %d\n1 %d\n2 %d\n' % (first, second, 1 + first % 3) * 40
            status, stdout, stderr = run(ORDER, trace, {b'T0.csv': SMALL_TABLE, b'O': order})
            found = wrong_text(CUT, stdout, SMALL_TABLE, 64) if status == 0 else ['status %d, %r' % (status, stderr)]
            wrong += ['%d and %d acts: %s' % (first, second, what) for what in found]
    return wrong


CASES = [every_kind_of_call, cut_at_each_instruction, large_trace]
