"""Sweeps: their rows by hand, going on where they were interrupted, and a cluster on this machine."""
import contextlib
import os
import re
import signal
import subprocess
import time

from support import (SECONDS, TOY, WORKED_ACTS, Missing, columns, ended, one_line, rows_of, same, served, started, tool,
                     worked, write)

import model
from changed import Changed

SWEPT = ['cache=0,1,2', 'transfer=0,9999']


def swept(folder, *words):
    return tool('sweep', worked(folder), *SWEPT, '--classes', TOY, '--csv', folder + '/s.csv', *words)


def test_rows_of_a_sweep(folder):
    result = swept(folder)
    served('sweep', result)
    recorded, *rows = rows_of(folder + '/s.csv')
    peak, acts = str(6 << 20), str(WORKED_ACTS)
    names = 'cache', 'status', 'peak_resident', 'peak_line', 'end_resident', 'end_used', 'end_frag', 'acts'
    # At the end the span and 13 pages are used.
    same('as recorded', columns([recorded], *names, 'transfer'), [['', '0', peak, '3', str(4 << 20), '14', '974', acts, '']])
    same('rows that ended', columns(rows[0::2], *names), [
        ['0', '0', peak, '3', str(2 << 20), '14', '949', acts], ['1', '0', peak, '3', str(4 << 20), '14', '974', acts],
        ['2', '0', peak, '3', str(6 << 20), '14', '983', acts]])
    same('rows that were refused', columns(rows[1::2], 'cache', 'transfer', 'status', 'note'),
         [[cache, '9999', '4', 'tcreplay: trace line transfer=9999: number'] for cache in '012'])
    same('the table says so', result[1].count('status 4: '), 3)
    same('ties are marked', result[1].count('* tie of 4\n'), 4)


def test_a_sweep_that_is_refused_as_a_whole(folder):
    bad = write(folder + '/bad.trace', 'a 0 0 1\nf 0 0\nf 0 0\n')
    status, text, errors = tool('sweep', bad, 'cache=1,2', '--csv', folder + '/s.csv')
    same('status', (status, errors), (1, 'sweep: all 3 runs were refused; their rows say why\n'))
    same('the rows say why', text.count('status 4: tcreplay: trace line 3: labelfreed\n'), 3)


def test_the_other_commands(folder):
    # Calls of large blocks have as many acts as in serial. The first call has 7 picks at a thread, and 6 at a node.
    order = write(folder + '/w.order', '0 5\n')
    for words, acts, peak in ((['--command', 'perthread'], 17, 6 << 20), (['--command', 'numa', '--nodes', '2'], 16, 6 << 20),
                              (['--command', 'order', '--order', order], WORKED_ACTS, ''),
                              (['--command', 'perthread', '--order', order], 17, '')):
        path = folder + '/' + ''.join(words).replace('/', '') + '.csv'
        served(words[1], tool('sweep', worked(folder), 'cache=0', '--classes', TOY, '--csv', path, *words))
        same(' '.join(words), columns(rows_of(path), 'peak_resident', 'end_resident', 'end_used', 'acts'),
             [[str(peak), str(size), '14', str(acts)] for size in (4 << 20, 2 << 20)])


def test_releases_as_a_what_if(folder):
    # After calls 2 and 4 a release: the first unbacks the 255 unused pages of hugepage 1, the second the free hugepage.
    served('sweep', tool('sweep', worked(folder), 'release=none,2/100', '--classes', TOY, '--csv', folder + '/r.csv'))
    names = 'release', 'calls', 'releases', 'peak_resident', 'peak_line', 'end_resident', 'end_used', 'end_frag'
    peak = str(6 << 20)
    same('rows', columns(rows_of(folder + '/r.csv'), *names), [
        ['', '4', '0', peak, '3', str(4 << 20), '14', '974'], ['none', '4', '0', peak, '3', str(4 << 20), '14', '974'],
        ['2/100', '6', '2', peak, '3', str(14 * 8192), '14', '71']])


def test_heads_stand_in_the_place_of_those_of_the_trace():
    trace = b'huge 4\ncpus 2\nhuge 5\na 0 0 1\np 0 1 0\nf 0 0\na 0 1 9'
    made = Changed(trace, [('huge', '9'), ('cache', '3'), ('release', '2/7')])
    same('the trace', made.data(), b'huge 4\ncpus 2\nhuge 9\ncache 3\na 0 0 1\np 0 1 0\nf 0 0\nr 0 7\na 0 1 9')
    same('its own lines', [made.own_line(line) for line in range(1, 10)], [1, 2, 'huge=9', 'cache=3', 4, 5, 6, 6, 7])
    made = Changed(b'huge 4', [('cache', '3')])
    same('heads alone', made.data(), b'huge 4\ncache 3\n')
    same('no head', Changed(b'a 0 0 1', []).data(), b'a 0 0 1')


def test_a_trace_of_a_million_lines(folder):
    # A head more, and one that counts acts: the last two lines are left out. Of a release no run has more than one act.
    calls = 999997
    trace = write(folder + '/full.trace', 'cpus 2\nthreads 2\nhuge 65\n' + 'r 0 0\n' * calls)
    result = tool('sweep', trace, 'cache=1', 'release=none,1/1', '--points', '1', '--csv', folder + '/s.csv')
    served('sweep', result)
    same('it is said', 'full.trace: its last 2 lines are left out of each run' in result[1], True)
    rows = rows_of(folder + '/s.csv')
    same('rows', columns(rows[:2], 'cache', 'status', 'calls', 'left_out', 'acts'),
         [[cache, '0', str(calls - 2), '2', str(calls - 2)] for cache in ('', '1')])
    same('too many lines', columns(rows[2:], 'status', 'note'), [[
        '4', 'sweep: %d lines with cache=1 release=1/1 and a head events, which counts acts; a trace has at most 1000000'
        % (5 + 2 * (calls - 2))]])


def test_a_short_peak_is_not_missed(folder):
    # Of 402 calls only behind call 132 a block of 64 hugepages is live. The two points are laid there and at the end.
    short = ''.join('a 0 %d 16\nf 0 %d\n' % (label, label) for label in range(200))
    lines = short.split('\n')
    lines[131:131] = ['a 0 900 134217728', 'f 0 900']
    trace = write(folder + '/short.trace', 'cache 0\n' + '\n'.join(lines))
    served('sweep', tool('sweep', trace, 'huge=100', '--points', '2', '--classes', TOY, '--csv', folder + '/s.csv'))
    # With it one hugepage is the filler's.
    same('peak', columns(rows_of(folder + '/s.csv')[1:], 'peak_resident', 'peak_line'), [[str(65 * 2097152), '133']])


def long_sweep(folder, count, *words):
    """A sweep of so many rows, started, when its first row is there."""
    trace = write(folder + '/made.trace', model.made_trace(3, 3000, 4))
    values = [str(value) for value in range(count)]
    running = started('sweep', trace, 'cache=' + ','.join(values), '--csv', folder + '/s.csv', '--points', '8', *words)
    end = time.monotonic() + SECONDS
    while not os.path.exists(folder + '/s.csv') and running.poll() is None and time.monotonic() < end:
        time.sleep(0.02)
    return running, values


def test_a_sweep_goes_on_from_the_rows_that_are_done(folder):
    running, values = long_sweep(folder, 40)
    running.send_signal(signal.SIGINT)
    one_line('interrupted', ended(running), 1, 'rows are kept')
    before = rows_of(folder + '/s.csv')
    same('some rows are done', 0 < len(before) < 41, True)
    running, _ = long_sweep(folder, 40)
    served('sweep', ended(running))
    after = rows_of(folder + '/s.csv')
    same('all values in order', [row['cache'] for row in after], ['', *values])
    same('the rows that were done are kept', [row for row in before if row not in after], [])


class Cluster:
    """A scheduler and two workers at this machine's own address."""

    def __init__(self, folder, workers=2):
        self.folder, self.processes = folder, []
        self.log = open(folder + '/cluster.log', 'w')
        self.start('dask_scheduler', '--host', '127.0.0.1', '--port', '0', '--scheduler-file', folder + '/scheduler')
        self.address = self.found(r'"address": "(tcp://[^"]*)"', folder + '/scheduler')
        for number in range(workers):
            self.start('dask_worker', self.address, '--nthreads', '1', '--no-nanny', '--local-directory',
                       '%s/worker%d' % (folder, number))
        self.found('(?s)((?:Registered to.*){%d})' % workers, folder + '/cluster.log')

    def start(self, name, *words):
        command = ['/usr/bin/python3', '-m', 'distributed.cli.' + name, *words, '--no-dashboard']
        self.processes.append(subprocess.Popen(command, cwd=self.folder, stdout=self.log, stderr=self.log))

    def found(self, pattern, path):
        end = time.monotonic() + SECONDS
        while time.monotonic() < end:
            if os.path.exists(path):
                with open(path) as file:
                    found = re.search(pattern, file.read())
                if found:
                    return found[1]
            time.sleep(0.1)
        raise Missing('the cluster didn\'t start')

    def end(self):
        for process in reversed(self.processes):
            process.kill()
            process.wait()
        self.log.close()


@contextlib.contextmanager
def cluster(folder, workers=2):
    try:
        import distributed      # noqa: F401
    except ImportError:
        raise Missing('python3-distributed is missing: tools/setup installs it') from None
    made = Cluster(folder, workers)
    try:
        yield made
    finally:
        made.end()


def test_a_cluster_gives_the_same_rows(folder):
    with cluster(folder) as made:
        swept(folder)
        here = rows_of(folder + '/s.csv')
        os.unlink(folder + '/s.csv')
        served('sweep', swept(folder, '--scheduler', made.address))
        same('rows', rows_of(folder + '/s.csv'), here)


def test_a_worker_that_ends_in_the_middle_loses_no_row(folder):
    with cluster(folder) as made:
        running, values = long_sweep(folder, 24, '--scheduler', made.address)
        made.processes[1].kill()
        served('sweep', ended(running))
        same('rows', columns(rows_of(folder + '/s.csv'), 'cache', 'status'), [[value, '0'] for value in ['', *values]])


def test_a_scheduler_without_workers(folder):
    with cluster(folder, workers=0) as made:
        one_line('no worker', swept(folder, '--scheduler', made.address), 1, 'has no worker: dask-worker tcp://')


def test_a_scheduler_that_is_not_there(folder):
    one_line('no scheduler', swept(folder, '--scheduler', 'tcp://127.0.0.1:9'), 1, 'no scheduler answers')
