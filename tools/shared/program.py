"""Runs the built program on bytes, and reads what it prints."""
import collections
import concurrent.futures
import contextlib
import os
import re
import resource
import signal
import subprocess

from .ends import Stop, package

TOP = os.path.dirname(os.path.dirname(os.path.dirname(os.path.abspath(__file__))))
BUILT = os.path.join(TOP, 'crates', 'tcreplay', 'out', 'tcreplay')
MODELS = [os.path.join(TOP, name) for name in ('model', 'tests/model')]
USUAL_TABLE = os.path.join(TOP, 'examples', 'T2.csv')
PAGE = 8192                     # bytes of a page
PAGES = 256                     # pages of a hugepage
LINE = 48                       # no line of a summary or a hugepage is longer
MOST_TEXT = 1 << 28             # bytes of a text, far above any of the program's
MOST_SECONDS = 900              # of a run, far above any of the program's
SUMMARY = re.compile(rb'calls ([0-9]+)\nlive ([0-9]+) ([0-9]+)\nused ([0-9]+)\nresident ([0-9]+)\nfrag ([0-9]+)\n'
                     rb'((?:h [0-9]+ (?:free|filler|run|region)(?: [0-9]+){5}\n)*)\Z')

Summary = collections.namedtuple('Summary', 'calls blocks live used resident frag rows')
Row = collections.namedtuple('Row', 'kind used runs backed longest donated')
Done = collections.namedtuple('Done', 'status text notes')


def found(path):
    """The built program's path."""
    path = path or BUILT
    if not os.access(path, os.X_OK) or os.path.isdir(path):
        raise Stop('the program isn\'t built: ./tcreplay builds it' if path == BUILT else
                   '%s isn\'t built; ./tcreplay builds the program of this checkout' % path)
    return path


def model_of_rules():
    """The model as a program with the same words, for what is short enough if the program isn't built."""
    return next((path for path in MODELS if os.access(path, os.X_OK)), None)


@contextlib.contextmanager
def memory_file(data=b''):
    """A descriptor of a file in memory with these bytes."""
    file = os.memfd_create('tcreplay')
    try:
        view = memoryview(data)
        while view:
            view = view[os.write(file, view):]
        os.lseek(file, 0, os.SEEK_SET)
        yield file
    finally:
        os.close(file)


def run(program, words, trace, keep=None):
    """One run over a trace. Of its text the last `keep` bytes are answered, or all."""
    with memory_file(trace) as source, memory_file() as text:
        try:
            status, notes = ended([program, *words], source, text)
        except OSError as fault:
            raise Stop('%s can\'t be run: %s' % (program, fault.strerror)) from None
        size = os.fstat(text).st_size
        start = max(0, size - keep) if keep is not None else 0
        read = os.pread(text, size - start, start)
    return Done(status, read, notes.decode(errors='replace').strip())


def limits_of_text():
    """The bytes that a run may print: no limit rises by this."""
    limits = resource.getrlimit(resource.RLIMIT_FSIZE)
    return tuple(MOST_TEXT if limit == resource.RLIM_INFINITY else min(limit, MOST_TEXT) for limit in limits)


def ended(words, source, text):
    """The status and the notes of a process, which is ended where it prints without end or doesn't end by itself."""
    with subprocess.Popen(words, stdin=source, stdout=text, stderr=subprocess.PIPE) as process:
        with contextlib.suppress(ProcessLookupError):
            resource.prlimit(process.pid, resource.RLIMIT_FSIZE, limits_of_text())
        try:
            notes = process.communicate(timeout=MOST_SECONDS)[1]
        except subprocess.TimeoutExpired:
            raise Stop('%s didn\'t end in %d s' % (words[0], MOST_SECONDS)) from None
        finally:
            process.kill()
    return process.returncode, notes


def refusal(done):
    """What to say of a run that had no text."""
    if done.status == -signal.SIGXFSZ:
        return 'what was run prints without end: it isn\'t tcreplay'
    if done.status < 0:
        return 'the program was ended by %s' % signal.Signals(-done.status).name
    return done.notes.split('\n')[0] or 'the program ended with status %d' % done.status


def checked(done):
    if done.status != 0:
        raise Stop(refusal(done))
    return done


def tail_bytes(huge):
    """The last so many bytes of a text have its summary and the lines of so many hugepages."""
    return LINE * (huge + 6)


def summary_of(text):
    """The summary at the end of a text, with its hugepages where they are there."""
    start = max(text.rfind(b'\ncalls ') + 1, 0)
    found = SUMMARY.match(text, start)
    if found is None:
        raise Stop('what was run isn\'t tcreplay: its text has no summary')
    rows = [line.split(' ') for line in found[7].decode().split('\n')[:-1]]
    return Summary(*(int(number) for number in found.groups()[:6]), [Row(row[2], *map(int, row[3:])) for row in rows])


def processors():
    return len(os.sched_getaffinity(0))


def side_by_side(work, items, many, progress=None):
    """Calls `work` on each item, on so many at a time, and yields (item, result) as they end. Where the caller leaves,
    those that haven't begun don't begin."""
    pool = concurrent.futures.ThreadPoolExecutor(many)
    try:
        futures = {pool.submit(work, item): item for item in items}
        for future in concurrent.futures.as_completed(futures):
            if progress is not None:
                progress.update()
            yield futures[future], future.result()
    finally:
        pool.shutdown(cancel_futures=True)


def progress_bar(total, what, unit):
    """A bar on standard error, where that is a terminal."""
    tqdm = package('tqdm', 'python3-tqdm')
    return tqdm.tqdm(total=total, desc=what, unit=' ' + unit, disable=None, leave=False)
