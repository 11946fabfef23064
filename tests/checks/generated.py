"""Generated traces, and random ones, as the model has them."""
import os
import sys
import tempfile
import time

import model
from checks.drawn import differing
from checks.mixes import OBJECT_TABLE
from checks.program import TOP, WRITE_FAULT, differences, full_device, if_built, read, run, run_with


def made_trace(seed, calls, threads):
    """A generated trace, by the model."""
    return model.made_trace(seed, calls, threads).encode()


def random_traces_as_by_the_model():
    """Program and model answer the same to 1,500 random traces and orders, by status, text and notes."""
    begun = time.monotonic()
    wrong = ['tests/compare %d 1 shows a difference' % seed for seed, _, _, _ in differing(1, 1500)]
    print('random_traces_as_by_the_model: %.1f s' % (time.monotonic() - begun), file=sys.stderr)
    return wrong


def random_traces_of_nodes_as_by_the_model():
    """The same to 500 random traces for one to eight memory nodes."""
    return ['tests/compare %d 1 numa shows a difference' % seed for seed, _, _, _ in differing(1, 500, 'numa')]


GEN = [b'gen', b'--classes', b'T1.csv']
THREE_CALLS = [b'gen', b'--classes', b'T0.csv', b'--seed', b'1', b'--calls', b'3', b'--threads', b'8']
THREE_LINES = b'cpus 4\nthreads 8\nhuge 1024\na 6 0 108\nf 3 0\na 3 1 702\n'


def check_generated(seed, calls, threads):
    """The trace is the model's, it can be replayed, and what is noted is the summary of that."""
    words = GEN + [b'--seed', b'%d' % seed, b'--calls', b'%d' % calls, b'--threads', b'%d' % threads]
    files = {b'T1.csv': OBJECT_TABLE}
    result = run(words, b'', files)
    trace = made_trace(seed, calls, threads)
    again = run(words, b'', files)
    serial = run([b'serial', b'--classes', b'T1.csv'], trace, files)
    wrong = differences((serial[0], b'', serial[2]), 0, b'')
    if again != result:
        wrong.append('a second run made something else')
    return wrong + differences(result, 0, trace, b''.join(serial[1].splitlines(keepends=True)[-5:]))


def generated_traces():
    """Traces of some seeds, among them the ends of the ranges."""
    return [wrong for seed, calls, threads in [(0, 1, 1), (1, 20000, 8), (118, 10, 63), (2147483647, 3000, 64)]
            for wrong in check_generated(seed, calls, threads)]


def most_generated_calls():
    """The most calls of the most threads."""
    begun = time.monotonic()
    wrong = check_generated(7, 500000, 64)
    print('most_generated_calls: %.1f s with its replay' % (time.monotonic() - begun), file=sys.stderr)
    return wrong


def generation_under_a_table_too_long():
    """The class table has one byte more than it may have."""
    return differences(run(THREE_CALLS, b'', {b'T0.csv': b'\n' * 65537}), 8, b'', b'tcreplay: longer than 65536 bytes\n')


def full_output_of_a_generation():
    """Standard output is on a device without room: the summary isn't written."""
    return differences(run_with({'stdout': full_device()}, words=THREE_CALLS), 6, b'', WRITE_FAULT)


def full_notes_of_a_generation():
    """Standard error is on a device without room: the trace is written before."""
    return differences(run_with({'stderr': full_device()}, words=THREE_CALLS), 6, THREE_LINES)


def generation_that_does_not_fit():
    """A file with room for 30 bytes takes as many of the trace, or of the summary."""
    wrong = []
    for stream, others in [('stdout', (b'', WRITE_FAULT)), ('stderr', (THREE_LINES, b''))]:
        with tempfile.TemporaryDirectory() as folder:
            name = os.path.join(folder, 'taken')
            result = run_with({stream: os.open(name, os.O_WRONLY | os.O_CREAT)}, words=THREE_CALLS, most_bytes=30)
            wrong += differences(result, 6, *others)
            taken = read(folder, 'taken')
            whole = THREE_LINES if stream == 'stdout' else b'calls 3\nlive 1 8192\nused 1\nresident 256\nfrag 996\n'
            if taken != whole[:30]:
                wrong.append('%s took %r in place of %r' % (stream, taken, whole[:30]))
    return wrong


CASES = [random_traces_as_by_the_model, generated_traces, most_generated_calls,
         generation_under_a_table_too_long, full_output_of_a_generation, full_notes_of_a_generation,
         generation_that_does_not_fit] + if_built(b'numa', [random_traces_of_nodes_as_by_the_model])
