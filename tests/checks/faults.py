"""Streams that fail: standard input, output and error."""
import os
import socket
import threading
import time

from checks.program import (EXAMPLES, READ_FAULT, WRITE_FAULT, differences, full_device, read, run_with,
                            unread_pipe)


def read_fault():
    """Standard input gives the whole trace, and then fails in place of its end."""
    return differences(run_with({'stdin': reset_socket(read(EXAMPLES, 'first.trace'))}), 5, b'', READ_FAULT)


SMALL_TRACE = b'a 0 0 10\n'
SMALL_TEXT = b'a 0 0 2097152 16\ncalls 1\nlive 1 16\nused 1\nresident 256\nfrag 999\n'


def reset_socket(data):
    """A descriptor that gives these bytes, and then fails in place of its end."""
    ours, theirs = socket.socketpair()
    ours.send(b'x')                     # never read there, so closing it resets ours
    theirs.send(data)
    theirs.close()
    return ours.detach()


def read_fault_behind_a_small_object():
    """The second read fails: all calls have come, and none is told."""
    return differences(run_with({'stdin': reset_socket(SMALL_TRACE)}), 5, b'', READ_FAULT)


def closed_output_of_a_small_object():
    """Nobody reads the text of one small object."""
    return differences(run_with({'stdout': unread_pipe()}, stdin=SMALL_TRACE), 6, b'', WRITE_FAULT)


def trace_that_is_a_folder():
    """Standard input is a folder, so its first read fails."""
    return differences(run_with({'stdin': os.open('.', os.O_RDONLY)}), 5, b'', READ_FAULT)


def closed_output():
    """Nobody reads standard output."""
    return differences(run_with({'stdout': unread_pipe()}), 6, b'', WRITE_FAULT)


def full_output():
    """Standard output is on a device without room."""
    return differences(run_with({'stdout': full_device()}), 6, b'', WRITE_FAULT)


def closed_output_of_a_refusal():
    """Nobody reads standard output, to which a refused run writes nothing."""
    return differences(run_with({'stdout': unread_pipe()}, stdin=b'q\n'), 4, b'',
                       b'tcreplay: trace line 1: word\n')


def closed_notes():
    """Nobody reads standard error; the status is that of the end that can't be told."""
    return differences(run_with({'stderr': unread_pipe()}, words=[b'serial']), 2, b'')


def full_notes():
    """Standard error is on a device without room."""
    return differences(run_with({'stderr': full_device()}, stdin=b'q\n'), 4, b'')


def notes_without_a_descriptor():
    """The program has no standard error at all."""
    return differences(run_with({}, words=[b'serial'], close=(2,)), 2, b'')


def closed_notes_of_a_whole_run():
    """Nobody reads standard error, to which a whole run writes nothing."""
    return differences(run_with({'stderr': unread_pipe()}), 0, read(EXAMPLES, 'first.out'))


def closed_output_and_notes():
    """Nobody reads either; the end is the write fault of the text."""
    return differences(run_with({'stdout': unread_pipe(), 'stderr': unread_pipe()}), 6, b'')


def run_in_pieces(trace, most):
    """One run to which standard input gives so many bytes at a time at most."""
    reading, writing = os.pipe()

    def feed():
        with os.fdopen(writing, 'wb', buffering=0) as pipe:
            for at in range(0, len(trace), most):
                pipe.write(trace[at:at + most])
                time.sleep(0.01)

    feeder = threading.Thread(target=feed)
    feeder.start()
    result = run_with({'stdin': reading})
    feeder.join()
    return result


def trace_in_pieces():
    """Standard input gives a few bytes at a time."""
    return differences(run_in_pieces(read(EXAMPLES, 'first.trace'), 5), 0, read(EXAMPLES, 'first.out'))


def small_object_in_pieces():
    """Where the trace is cut makes no difference."""
    return [wrong for most in (1, 2, 5) for wrong in differences(run_in_pieces(SMALL_TRACE, most), 0, SMALL_TEXT)]


CASES = [read_fault, read_fault_behind_a_small_object, trace_that_is_a_folder, closed_output,
         closed_output_of_a_small_object, full_output, closed_output_of_a_refusal, closed_notes, full_notes,
         notes_without_a_descriptor, closed_notes_of_a_whole_run, closed_output_and_notes, trace_in_pieces,
         small_object_in_pieces]
