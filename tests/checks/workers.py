"""Worker threads, whose order is any."""
from checks.generated import made_trace
from checks.program import EXAMPLES, HUGE, ORDER, PAGE, SMALL_TABLE, differences, if_built, read, run

# The greatest number of threads.

def sixty_four_threads():
    """Each thread allocates two pages, the last thread first, and each block is freed by the next thread."""
    threads = range(64)
    trace = b'threads 64\n'
    trace += b''.join(b'a %d %d 8193\n' % (thread, thread) for thread in threads)
    trace += b''.join(b'f %d %d\n' % ((thread + 1) % 64, thread) for thread in threads)
    order = b''.join(b'%d\n' % thread for thread in reversed(threads))
    places = {thread: HUGE + 2 * PAGE * (63 - thread) for thread in threads}
    text = b''.join(b'a %d %d %d %d\n' % (thread, thread, places[thread], 2 * PAGE)
                    for thread in reversed(threads))
    text += b''.join(b'f %d %d %d\n' % ((thread + 1) % 64, thread, places[thread]) for thread in threads)
    text += b'calls 128\nlive 0 0\nused 0\nresident 256\nfrag 1000\n'
    return differences(run(ORDER, trace, {b'T0.csv': SMALL_TABLE, b'O': order}), 0, text)


# Worker threads, whose order is any.

LOCKS = [b'one', b'parts']
SLABS = [[b'workers', b'--locks', locks] for locks in LOCKS]
CACHES = [[b'perthread', b'--workers']]
NODES = if_built(b'numa', [[b'numa', b'--nodes', b'2', b'--workers']])
MIX = (b'threads 4\nhuge 8\na 0 0 300000\na 1 1 2097152\na 2 2 16384\na 3 3 2500000\nf 1 0\nf 2 1\nr 3 100\n'
       b'a 0 4 100000\nf 3 2\nf 0 3\na 2 5 50000\n')


def head_of_summary(text):
    """The lines `calls` and `live` of a text."""
    return [line for line in text.split(b'\n') if line.startswith((b'calls ', b'live '))]


def without_drains(trace):
    return b''.join(line for line in trace.splitlines(keepends=True) if not line.startswith((b'd ', b'z ')))


def workers_end_as_runs_in_turn():
    """Of two mixes, and of each example in which every order serves each allocation, a run by threads has the calls
    and the live blocks of the one in trace order, at slabs, with caches of threads and at two nodes. Where there is one
    thread it has its text."""
    alone = ['first', 'frees', 'filler', 'tail', 'region', 'release', 'window', 'abort', 'long', 'trim']
    several = ['workers', 'stale', 'fence', 'transfer', 'buffers', 'steal']
    tables = {'long': b'T1.csv', 'buffers': b'T2.csv'}
    runs = [(read(EXAMPLES, name + '.trace'), tables.get(name, b'T0.csv'), name in alone) for name in alone + several]
    runs += [(MIX, b'T0.csv', False), (made_trace(1, 5000, 8), b'T1.csv', False)]
    wrong = []
    for trace, table, has_one_thread in runs:
        files = {table: read(EXAMPLES, table.decode())}
        for in_turn, by_threads in (([b'serial'], SLABS), ([b'perthread'], CACHES), ([b'numa', b'--nodes', b'2'], NODES)):
            calls = trace if by_threads is SLABS else without_drains(trace)
            expected = run(in_turn + [b'--classes', table], calls, files)
            for words in by_threads:
                result = run(words + [b'--classes', table], calls, files)
                if has_one_thread:
                    wrong += differences(result, 0, expected[1])
                elif result[0] != 0 or head_of_summary(result[1]) != head_of_summary(expected[1]):
                    wrong.append('%r in place of calls and live of %r' % (result[1], expected[1]))
    return wrong


def workers_print_what_came():
    """The two workers of the example print one of the two texts that their orders have, with a profile whose peak comes at
    the one call or at the other."""
    trace, sample = read(EXAMPLES, 'workers.trace'), [b'--sample', b'65536']
    texts = [run(ORDER + sample, trace, {b'T0.csv': SMALL_TABLE, b'O': order})[1] for order in (b'0 3\n', b'1 3\n')]
    wrong = []
    for locks in LOCKS * 10:
        result = run([b'workers', b'--classes', b'T0.csv', b'--locks', locks] + sample, trace, {b'T0.csv': SMALL_TABLE})
        if result[0] != 0 or result[1] not in texts:
            wrong.append('%r is none of %r' % (result, texts))
    return wrong


def sixty_four_workers():
    """Each of 64 threads allocates two pages and frees those of the thread before it."""
    trace = b'threads 64\n' + b''.join(b'a %d %d 8193\n' % (thread, thread) for thread in range(64))
    trace += b''.join(b'f %d %d\n' % ((thread + 1) % 64, thread) for thread in range(64))
    wrong = []
    for words in SLABS + CACHES + NODES:
        status, text, notes = run(words + [b'--classes', b'T0.csv'], trace, {b'T0.csv': SMALL_TABLE})
        lines = text.split(b'\n')
        if status != 0 or head_of_summary(text) != [b'calls 128', b'live 0 0'] or len(lines) != 134:
            wrong.append('status %d, notes %r and %r' % (status, notes, text[:300]))
    return wrong


CASES = [sixty_four_threads, workers_end_as_runs_in_turn, workers_print_what_came, sixty_four_workers]
