"""What a pick costs where the allocator has 40,000 live spans of one class, against where it has 400, when one thread
makes one call after another.

It runs the built program, crates/tcreplay/out/tcreplay, on traces that it writes into a temporary folder: a beginning,
after which so many spans are live, and behind it a tail of 200,000 allocations and as many frees, which leaves them
live. The cost of the tail is the processor time of a trace less that of its beginning alone, each the least of five
runs, by the picks of the tail. They are counted: the program ends with status 0 exactly where the head `events` gives
it as many picks as it makes. With valgrind's callgrind on the machine, the instructions of a tail of a tenth of that
are told too, which other work on the machine doesn't change.
"""
import os
import re
import shutil
import subprocess
import sys
import tempfile

TOP = os.path.dirname(os.path.dirname(os.path.abspath(__file__)))
PROGRAM = os.path.join(TOP, 'crates', 'tcreplay', 'out', 'tcreplay')
RUNS = 5
SPANS = (400, 40000)
TAIL = 200000
COUNTED_TAIL = TAIL // 10
MOST_PICKS = 40000000

HUGE = b'huge 4096\n'
NO_CACHES = HUGE + b'percpu 0\ntransfer 0\n'


def draws():
    """Numbers below 2^30, from a small linear congruential generator."""
    x = 1
    while True:
        number = 0
        for _ in range(2):
            x = (x * 1103515245 + 12345) % 2147483648
            number = number * 32768 + x // 65536
        yield number


def trace_of(head, size, live, gone, tail, any_of_all):
    """Allocations of so many labels, frees of some of these, and the tail: each of its allocations is followed by a
    free of the same block, or of any of the live ones."""
    draw = draws()
    lines = [head]
    lines += [b'a 0 %d %d\n' % (label, size) for label in range(live)]
    lines += [b'f 0 %d\n' % label for label in range(live) if gone(label)]
    stay = [label for label in range(live) if not gone(label)]
    for label in range(live, live + tail):
        lines.append(b'a 0 %d %d\n' % (label, size))
        place = next(draw) % len(stay)
        lines.append(b'f 0 %d\n' % (stay[place] if any_of_all else label))
        if any_of_all:
            stay[place] = label
    return b''.join(lines)


def full_spans(spans, tail, any_of_all, head):
    return trace_of(head, 8192, spans, lambda label: False, tail, any_of_all)


def half_spans(spans, tail, any_of_all, head):
    return trace_of(head, 4096, 2 * spans, lambda label: label % 2 == 0, tail, any_of_all)


def one_object_a_span(spans, tail):
    """Each span has one object, and no cache holds any: each allocation gets a new span, and its free returns it."""
    return full_spans(spans, tail, False, NO_CACHES)


def one_object_a_span_at_random(spans, tail):
    """The same, where each free is of any live block."""
    return full_spans(spans, tail, True, NO_CACHES)


def two_objects_a_span(spans, tail):
    """Each span has two objects, one of them free, and no cache holds any: an object is taken and put back."""
    return half_spans(spans, tail, False, NO_CACHES)


def two_objects_a_span_at_random(spans, tail):
    """The same, where each free is of any live block."""
    return half_spans(spans, tail, True, NO_CACHES)


def two_objects_behind_caches(spans, tail):
    """The same with the caches that a trace without heads has."""
    return half_spans(spans, tail, True, HUGE)


WORKLOADS = [
    one_object_a_span,
    one_object_a_span_at_random,
    two_objects_a_span,
    two_objects_a_span_at_random,
    two_objects_behind_caches,
]


class Bench:
    """The program with a table of a class of 4,096 bytes and one of 8,192, of one page each."""

    def __init__(self, folder):
        self.folder = folder
        self.table = self.file('classes', b'4096,1,2\n8192,1,2\n')

    def file(self, name, data):
        path = os.path.join(self.folder, name)
        with open(path, 'wb') as file:
            file.write(data)
        return path

    def run(self, trace, before=()):
        """Runs the program on a trace, and gives its status, processor time and standard error."""
        stdin = self.file('trace', trace)
        words = [*before, PROGRAM, 'serial', '--classes', self.table]
        with open(stdin, 'rb') as stdin, open(os.path.join(self.folder, 'text'), 'wb') as stdout, \
                open(os.path.join(self.folder, 'said'), 'w+b') as said:
            child = subprocess.Popen(words, stdin=stdin, stdout=stdout, stderr=said)
            _, status, used = os.wait4(child.pid, 0)
            child.returncode = os.waitstatus_to_exitcode(status)
            said.seek(0)
            return child.returncode, used.ru_utime + used.ru_stime, said.read().decode()

    def seconds(self, trace):
        return min(self.run(trace)[1] for _ in range(RUNS))

    def picks(self, trace):
        """How many picks a trace makes: the least limit under which the program ends well."""
        least, most = 1, MOST_PICKS
        while least < most:
            limit = (least + most) // 2
            if self.run(b'events %d\n' % limit + trace)[0] == 0:
                most = limit
            else:
                least = limit + 1
        return least

    def instructions(self, trace):
        out = os.path.join(self.folder, 'callgrind')
        before = ('valgrind', '--tool=callgrind', '--callgrind-out-file=' + out)
        return int(re.search(r'Collected : (\d+)', self.run(trace, before)[2]).group(1))

    def cost(self, measure, workload, spans, tail):
        """What a pick of the tail costs."""
        begin, whole = workload(spans, 0), workload(spans, tail)
        picks = self.picks(whole) - self.picks(begin)
        return (measure(whole) - measure(begin)) / picks


def report(bench, workload):
    print('%s: %s' % (workload.__name__, workload.__doc__))
    few, many = (bench.cost(bench.seconds, workload, spans, TAIL) * 1e9 for spans in SPANS)
    print('    %.0f and %.0f ns a pick at %d and at %d spans: %.2f times' % (few, many, *SPANS, many / few), flush=True)
    if shutil.which('valgrind'):
        few, many = (bench.cost(bench.instructions, workload, spans, COUNTED_TAIL) for spans in SPANS)
        print('    %.0f and %.0f instructions: %.2f times' % (few, many, many / few), flush=True)


def measure(names):
    """Reports on the workloads of these names, or on all."""
    unknown = sorted(set(names) - {workload.__name__ for workload in WORKLOADS})
    if unknown:
        sys.exit('bench/crate: there is no workload %s of picks' % ', '.join(unknown))
    if not os.access(PROGRAM, os.X_OK):
        sys.exit('bench/crate: %s is missing; ./tcreplay builds it' % os.path.relpath(PROGRAM, TOP))
    with tempfile.TemporaryDirectory() as folder:
        for workload in WORKLOADS:
            if not names or workload.__name__ in names:
                report(Bench(folder), workload)
