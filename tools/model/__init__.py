"""The rules of tcreplay once more, told slowly and plainly: an independent voice that shares nothing with the program.

Each rule is a short function over lists, sets and dicts, and each choice is a `min` whose key is the order of the
choice. What a rule refuses ends in a Refusal, which has the status and the line of notes. A CPU's open mark, and how many
instructions a thread ran since it was switched in, stand in no rule here: they say only when worker threads give way to
each other, and the picks of serial and order don't ask that.

    lines       lines, fields and numbers
    tables      class tables
    reading     traces and orders
    refusal     how a run ends that has no text
    heap        hugepages, and where runs of pages are placed
    spans       spans of objects, and what stands behind the front
    slabs       CPUs with their slabs, and threads with their restartable sequences
    caches      caches of threads, with limits that others may take; and no caches
    machine     all parts, the calls as acts, and runs in any order, told to a listener
    holdings    what holds the memory, at any moment of a run
    text        what is printed
    profile     the sampled profile of live blocks
    journal     whether a list of answered calls is legal, whoever wrote it
    made        traces that are made from a seed
    words       the grammar of the command line
    streams     standard input and output, files, and how they fail
    program     all of it, from words and streams to a status
"""
from .journal import audit
from .machine import Listener, Replay
from .made import made_trace
from .refusal import Refusal
from .text import answer

__all__ = ['Listener', 'Refusal', 'Replay', 'answer', 'audit', 'made_trace']
