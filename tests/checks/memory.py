"""Memory that is refused: each time that the program asks for some, in turn."""
import os
import subprocess
import tempfile

from checks.program import PROGRAM, SECONDS, SMALL_TABLE, write_files
from checks.workers import CACHES, NODES, SLABS

SOURCE = os.path.join(os.path.dirname(os.path.abspath(__file__)), 'refuse.c')
IN_TURN = [[b'serial'], [b'perthread'], [b'numa', b'--nodes', b'2']]
MOST_ASKED = 2000       # more than any of these runs asks for

# Two threads that free each other's small objects. In every order these lines come of it.
CROSSED = b'cpus 2\nthreads 2\na 0 0 10\na 1 1 10\nf 1 0\nf 0 1\n'
ENDED = b'\ncalls 4\nlive 0 0\nused '


def run_refusing(library, words, number):
    """The status and the streams of a run whose request of that number is refused, and whether there was one."""
    with tempfile.TemporaryDirectory() as folder:
        write_files(folder, {b'T0.csv': SMALL_TABLE})
        said = os.path.join(folder, 'refusal')
        done = subprocess.run([PROGRAM.encode()] + words + [b'--classes', b'T0.csv'], input=CROSSED, cwd=folder, stdout=subprocess.PIPE,
                              stderr=subprocess.PIPE, timeout=SECONDS,
                              env={**os.environ, 'LD_PRELOAD': library, 'REFUSED': str(number), 'REFUSAL': said})
        return (done.returncode, done.stdout, done.stderr), os.path.exists(said)


def wrong_of(result):
    """What is wrong with such a run: it told want of memory and printed nothing, or it is as if nothing had been refused."""
    status, text, notes = result
    if status == 7:
        return [] if (text, notes) == (b'', b'tcreplay: out of memory\n') else ['status 7 with %r and %r' % (text, notes)]
    return [] if status == 0 and notes == b'' and ENDED in text else ['status %d with %r and %r' % (status, text, notes)]


def memory_refused_in_turn():
    """Each command over its machine, in turn and by worker threads, has each of its requests for memory refused: it says so
    and prints nothing, or it did without. At least one request is refused to each."""
    wrong = []
    with tempfile.TemporaryDirectory() as folder:
        library = os.path.join(folder, 'refuse.so')
        subprocess.run(['cc', '-O1', '-shared', '-fPIC', '-o', library, SOURCE, '-ldl'], check=True)
        for words in IN_TURN + SLABS + CACHES + NODES:
            told = []
            for number in range(1, MOST_ASKED):
                result, is_refused = run_refusing(library, words, number)
                if not is_refused:
                    break
                told += [result[0]]
                wrong += ['%s, request %d: %s' % (b' '.join(words).decode(), number, each) for each in wrong_of(result)]
            if 7 not in told or not is_refused and wrong_of(result):
                wrong.append('%s: %d requests, of which none was told: %r' % (b' '.join(words).decode(), len(told), result))
    return wrong


CASES = [memory_refused_in_turn]
