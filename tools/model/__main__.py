"""Run by ./model, with the trace at descriptor 3."""
import os
import signal
import sys


def end_at_interrupt(number, frame):
    try:
        os.write(2, b'model: interrupted\n')
    except OSError:
        pass                    # nobody is there to be told
    os._exit(130)


if signal.getsignal(signal.SIGINT) != signal.SIG_IGN:
    signal.signal(signal.SIGINT, end_at_interrupt)
sys.path[0] = os.path.dirname(os.path.dirname(os.path.realpath(__file__)))
from model.program import run
from model.streams import Streams

os._exit(run(sys.argv[1:], Streams(3)))         # all is written by then
