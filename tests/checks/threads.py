"""Worker threads where the system has room for none or for a few: under a limit on a user's processes, and under one on
a process's addresses."""
import os
import resource
import shutil
import subprocess
import sys
import tempfile
import threading
import time

from checks.mixes import OBJECT_TABLE
from checks.program import PROGRAM, SECONDS, SMALL_TABLE, run, write_files
from checks.workers import CACHES, NODES, SLABS, head_of_summary, without_drains

MOST_SECONDS = 3
MEBIBYTE = 1 << 20
STACK = 64 * MEBIBYTE       # of each thread that begins: fewer bytes of addresses have no room for one
WORKERS = 8                 # of the generated mix


def user_without_processes():
    """The number of a user who isn't root, and of whom no process runs: a limit counts all threads of a user."""
    taken = set()
    for name in os.listdir('/proc'):
        try:
            taken.add(os.stat('/proc/' + name).st_uid)
        except OSError:         # it has ended
            pass
    return next(user for user in range(61000, 65000) if user not in taken)


class Room:
    """A user whose process may have so many threads beside its first, or else so many bytes of addresses."""

    def __init__(self, user, threads=None, addresses=0):
        self.user = user
        self.threads = threads
        self.addresses = addresses

    def __str__(self):
        return 'room for %d bytes' % self.addresses if self.addresses else 'room for %d threads' % self.threads

    def set_limits(self, taken=0):
        """Of a process that has taken so many bytes of addresses already."""
        resource.setrlimit(resource.RLIMIT_STACK, (STACK, STACK))
        if self.threads is not None:
            resource.setrlimit(resource.RLIMIT_NPROC, (self.threads + 1, self.threads + 1))
        if self.addresses:
            resource.setrlimit(resource.RLIMIT_AS, (taken + self.addresses, taken + self.addresses))

    def threads_to_be_had(self):
        """How many threads with such stacks can be started there, of as many as the mix has workers."""
        child = os.fork()
        if child == 0:
            os._exit(self.count_threads())
        return os.waitstatus_to_exitcode(os.waitpid(child, 0)[1])

    def count_threads(self):
        """The same in a process of its own, which becomes the user's."""
        with open('/proc/self/status', encoding='ascii') as file:
            taken = next(int(line.split()[1]) << 10 for line in file if line.startswith('VmSize:'))
        os.setgroups([])
        os.setresgid(self.user, self.user, self.user)
        os.setresuid(self.user, self.user, self.user)
        self.set_limits(taken)
        threading.stack_size(STACK)
        for had in range(WORKERS):
            try:
                threading.Thread(target=time.sleep, args=(SECONDS,), daemon=True).start()
            except (RuntimeError, MemoryError):
                return had
        return WORKERS

    def run(self, words, stdin, files):
        """The status, standard output, standard error and seconds of one run. The program is copied into the folder that
        it runs in, since the user may not come to where it was built."""
        with tempfile.TemporaryDirectory() as folder:
            write_files(folder, files)
            program = shutil.copy(PROGRAM, folder)
            os.chmod(folder, 0o755)
            begun = time.monotonic()
            done = subprocess.run([program.encode()] + words, input=stdin, cwd=folder, stdout=subprocess.PIPE,
                                  stderr=subprocess.PIPE, timeout=SECONDS, user=self.user, group=self.user,
                                  extra_groups=[], preexec_fn=self.set_limits)
            return done.returncode, done.stdout, done.stderr, time.monotonic() - begun


def rooms(user):
    """Room for no thread, for one and for three, for no stack of a thread, and for two or three."""
    return [Room(user, threads) for threads in (0, 1, 3)] + [Room(user, None, most * MEBIBYTE) for most in (60, 240)]


def traces():
    """Two threads that free each other's blocks, two that end at the limit of picks, one that waits for the first one's
    block, and 120,000 lines of eight threads, each with its table."""
    mix = [b'gen', b'--classes', b'T1.csv', b'--seed', b'1', b'--calls', b'120000', b'--threads', b'%d' % WORKERS]
    return [(b'cpus 2\nthreads 2\na 0 0 10\na 1 1 10\nf 1 0\nf 0 1\n', b'T0.csv'),
            (b'threads 2\nevents 38\na 0 0 10\na 1 1 10\n', b'T0.csv'),
            (b'threads 2\na 0 0 2097152\na 1 1 300000\nf 1 0\n', b'T0.csv'),
            (run(mix, b'', {b'T1.csv': OBJECT_TABLE})[1], b'T1.csv')]


def wrong_of(result, expected, seconds_in_turn):
    """What is wrong with a run: it ends soon with the calls and the live blocks of the run in turn and a line for each
    call, or tells want of memory."""
    status, text, notes, seconds = result
    most = MOST_SECONDS
    wrong = []
    if status == 7 and notes == b'tcreplay: out of memory\n':
        most = max(MOST_SECONDS, 2 * seconds_in_turn)
    elif status != 0 or notes != b'' or head_of_summary(text) != head_of_summary(expected):
        wrong.append('status %d, notes %r and %r' % (status, notes, head_of_summary(text)))
    elif text.count(b'\n') != expected.count(b'\n'):
        wrong.append('%d lines in place of %d' % (text.count(b'\n'), expected.count(b'\n')))
    if seconds > most:
        wrong.append('it took %.1f s' % seconds)
    return wrong


def wrong_at_best(room, words, calls, files, expected, seconds):
    """What is wrong with a run there. One that ends right and only takes long is run once more, since other work on the
    machine slows it down."""
    for _ in range(2):
        wrong = wrong_of(room.run(words, calls, files), expected, seconds)
        if not wrong or not wrong[0].startswith('it took '):
            break
    return wrong


def threads_that_cannot_be_had():
    """Where some or all threads are refused, traces in which threads wait for each other end as those in which each has a
    thread, and soon. That some are refused is shown first."""
    if os.geteuid() != 0:
        print('threads_that_cannot_be_had: left out, since only root can run as another user', file=sys.stderr)
        return []
    begun = time.monotonic()
    files = {b'T0.csv': SMALL_TABLE, b'T1.csv': OBJECT_TABLE}
    places = rooms(user_without_processes())
    had = [(str(room), room.threads_to_be_had(), room.threads) for room in places]
    wrong = ['%s: %d threads were to be had' % (room, threads) for room, threads, most in had
             if threads >= WORKERS or most not in (None, threads)]
    for trace, table in traces():
        for in_turn, by_threads in (([b'serial'], SLABS), ([b'perthread'], CACHES), ([b'numa', b'--nodes', b'2'], NODES)):
            calls = trace if by_threads is SLABS else without_drains(trace)
            start = time.monotonic()
            expected = run(in_turn + [b'--classes', table], calls, files)[1]
            seconds = time.monotonic() - start
            wrong += ['%s: %s: %s' % (room, b' '.join(words).decode(), each) for room in places for words in by_threads
                      for each in wrong_at_best(room, words + [b'--classes', table], calls, files, expected, seconds)]
    print('threads_that_cannot_be_had: %.1f s' % (time.monotonic() - begun), file=sys.stderr)
    return wrong


CASES = [threads_that_cannot_be_had]
