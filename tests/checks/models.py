"""The model as a program: each stored case, streams that fail, limits, and how it is started."""
import os
import resource
import signal
import subprocess
import sys
import time

from checks.faults import SMALL_TEXT, SMALL_TRACE, reset_socket
from checks.modelled import WORKERS, run_by_the_model
from checks.program import (EXAMPLES, MODEL, NOTHING, READ_FAULT, SECONDS, SERIAL, SMALL_TABLE, TOP, WRITE_FAULT, differences,
                            full_device, read, run, run_with, unread_pipe)
from checks.stored import stored_cases

GEN = [b'gen', b'--classes', b'T0.csv', b'--seed', b'1', b'--calls', b'3', b'--threads', b'8']
GEN_LINES = b'cpus 4\nthreads 8\nhuge 1024\na 6 0 108\nf 3 0\na 3 1 702\n'


def asks_for_worker_threads(case):
    return case.status != 2 and (case.words[:1] == [b'workers'] or b'--workers' in case.words)


def stored_cases_by_the_model():
    """Each stored case has the same status, text and notes by the model; those of worker threads end in its one line."""
    begun = time.monotonic()
    wrong = []
    for case in stored_cases():
        result = run_by_the_model(case.words, case.stdin, case.files)
        expected = differences(result, 1, b'', WORKERS) if asks_for_worker_threads(case) else case.wrong_of(result)
        wrong += ['%s: %s' % (case.name, each) for each in expected]
    print('stored_cases_by_the_model: %.1f s' % (time.monotonic() - begun), file=sys.stderr)
    return wrong


def model_run_with(streams, *words, **others):
    return run_with(streams, *words, program=MODEL, **others)


def streams_of_the_model_that_fail():
    """Standard input, output and error that fail, are closed or are a folder: status and notes are those of the program."""
    whole = read(EXAMPLES, 'first.out')
    return (differences(model_run_with({'stdin': reset_socket(SMALL_TRACE)}), 5, b'', READ_FAULT)
            + differences(model_run_with({'stdin': os.open('.', os.O_RDONLY)}), 5, b'', READ_FAULT)
            + differences(model_run_with({'stdin': os.open('.', os.O_RDONLY)}, [b'serial']), 2, b'', b'tcreplay: usage\n')
            + differences(model_run_with({'stdout': unread_pipe()}), 6, b'', WRITE_FAULT)
            + differences(model_run_with({'stdout': full_device()}), 6, b'', WRITE_FAULT)
            + differences(model_run_with({}, close=(1,)), 6, b'', WRITE_FAULT)
            + differences(model_run_with({'stdout': unread_pipe()}, stdin=b'q\n'), 4, b'', b'tcreplay: trace line 1: word\n')
            + differences(model_run_with({'stderr': full_device()}, stdin=b'q\n'), 4, b'')
            + differences(model_run_with({'stderr': unread_pipe()}, [b'serial']), 2, b'')
            + differences(model_run_with({}, [b'serial'], close=(2,)), 2, b'')
            + differences(model_run_with({'stderr': unread_pipe()}), 0, whole)
            + differences(model_run_with({'stdout': full_device()}, GEN), 6, b'', WRITE_FAULT)
            + differences(model_run_with({'stderr': full_device()}, GEN), 6, GEN_LINES)
            + differences(model_run_with({}, SERIAL, stdin=SMALL_TRACE), 0, SMALL_TEXT))


def started(words, preexec=None, **environment):
    """The model, with the first trace as standard input where it isn't asked for another one."""
    return subprocess.Popen([MODEL] + words, cwd=EXAMPLES, stdin=subprocess.PIPE, stdout=subprocess.PIPE, stderr=subprocess.PIPE,
                            preexec_fn=preexec, env={**os.environ, **environment})


def result_of(process, stdin):
    stdout, stderr = process.communicate(stdin, timeout=SECONDS)
    return process.returncode, stdout, stderr


def model_that_is_interrupted():
    """While it waits for its trace: one line, and the status that a shell expects. It reads by a pipe that is full, so it
    waits for more, and has begun, if what was put there is gone."""
    process = started(['serial', '--classes', 'T0.csv'])
    process.stdin.write(b'huge 4\n' * 100000)
    process.stdin.flush()
    process.send_signal(signal.SIGINT)
    return differences(result_of(process, b''), 130, b'', b'model: interrupted\n')


def model_without_memory():
    """With room for Python, and for no trace of 60 MB, it ends as the program does."""
    def limit():
        resource.setrlimit(resource.RLIMIT_AS, (120 << 20, 120 << 20))

    process = started(['serial', '--classes', 'T0.csv'], limit, TCREPLAY_PYTHON='python3')
    return differences(result_of(process, b'huge 4\n' * 9000000), 7, b'', b'tcreplay: out of memory\n')


def limits_of_the_model():
    """Bytes, lines and picks at their limits, and just above."""
    order = [b'order', b'--classes', b'T0.csv', b'--order', b'O']
    audit = [b'audit', b'--classes', b'T0.csv', b'--journal', b'O']
    too_long = b'tcreplay: longer than 67108864 bytes\n'
    wrong = []
    for words, trace, table, other, status, text, notes in (
            (SERIAL, b'x' * 67108864, SMALL_TABLE, b'', 4, b'', b'tcreplay: trace line 1: word\n'),
            (SERIAL, b'x' * 67108865, SMALL_TABLE, b'', 8, b'', too_long),
            (SERIAL, b'huge 4\n' * 1000000, SMALL_TABLE, b'', 0, NOTHING, b''),
            (SERIAL, b'huge 4\n' * 1000001, SMALL_TABLE, b'', 4, b'', b'tcreplay: trace line 1000001: lines\n'),
            (SERIAL, b'', b'16,1,4\n'.ljust(65536, b'\n'), b'', 0, NOTHING, b''),
            (SERIAL, b'', b'16,1,4\n'.ljust(65537, b'\n'), b'', 8, b'', b'tcreplay: longer than 65536 bytes\n'),
            (order, b'', SMALL_TABLE, b'0 1000000\n' * 40, 0, NOTHING, b''),
            (order, b'', SMALL_TABLE, b'x' * 67108865, 8, b'', too_long),
            (order, b'', SMALL_TABLE, b'0\n' * 1000001, 10, b'', b'tcreplay: order line 1000001: lines\n'),
            (audit, b'', SMALL_TABLE, b'x' * 67108865, 8, b'', too_long)):
        wrong += differences(run_by_the_model(words, trace, {b'T0.csv': table, b'O': other}), status, text, notes)
    return wrong


def both_names_and_both_pythons():
    """tests/model is the same, the folder in which it is started doesn't count, and python3 and pypy3, if that is there,
    print the same."""
    wrong = []
    trace, text = read(EXAMPLES, 'long.trace'), read(EXAMPLES, 'long.out')
    words = [b'serial', b'--classes', b'T1.csv', b'--rows']
    files = {b'T1.csv': read(EXAMPLES, 'T1.csv')}
    for program in (MODEL, os.path.join(TOP, 'tests', 'model')):
        wrong += differences(run(words, trace, files, program), 0, text)
    for python in ('python3', 'pypy3', 'no-such-python'):
        process = started([word.decode() for word in words], TCREPLAY_PYTHON=python)
        wrong += differences(result_of(process, trace), 0, text)
    return wrong


CASES = [stored_cases_by_the_model, streams_of_the_model_that_fail, model_that_is_interrupted, model_without_memory,
         limits_of_the_model, both_names_and_both_pythons]
