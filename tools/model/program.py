"""The program's words, answered: from words and streams to a status, a text and a line of notes."""
from .journal import Journal
from .machine import Replay
from .made import made_trace
from .refusal import Refusal
from .streams import NOTES, OUTPUT
from .tables import read_table
from .text import answer
from .words import task_of

MOST_TABLE_BYTES = 65536
MOST_BYTES = 67108864           # of a trace, an order file and a journal


def table_of(values, streams):
    """The text of the class table, in which no record is bad."""
    table = streams.file(values['--classes'], MOST_TABLE_BYTES)
    read_table(table)
    return table


def replayed(command, values, streams):
    table = table_of(values, streams)
    replay = Replay(table, streams.input(MOST_BYTES), command=command, nodes=values.get('--nodes', 1))
    if '--order' in values:
        replay.order = streams.file(values['--order'], MOST_BYTES)
    return ended(replay, '--rows' in values, values.get('--sample')), ''


def ended(replay, rows, sample):
    """The text of a run to its end."""
    status, text, notes = answer(replay.run(), rows, sample)
    if status:
        raise Refusal(status, 'events limit %d' % replay.events)
    return text


def generated(values, streams):
    """A made trace, and the summary of its replay."""
    table = table_of(values, streams)
    trace = made_trace(values['--seed'], values['--calls'], values['--threads'])
    text = ended(Replay(table, trace), False, None)
    return trace, ''.join(text.splitlines(keepends=True)[-5:])


def judged(values, streams):
    table = table_of(values, streams)
    journal = Journal(table, streams.input(MOST_BYTES))
    return 'yes %d\n' % journal.judge(streams.file(values['--journal'], MOST_BYTES)), ''


def answered(words, streams):
    """The text and the notes that the words ask for."""
    command, values = task_of(words)
    if command == 'workers' or '--workers' in values:
        raise Refusal(1, 'worker threads need ./tcreplay', who='model')
    if command == 'gen':
        return generated(values, streams)
    if command == 'audit':
        return judged(values, streams)
    return replayed(command, values, streams)


def run(words, streams):
    """The status. What is to be printed and noted is written."""
    try:
        text, notes = answered(words, streams)
        streams.put(OUTPUT, text)
        streams.put(NOTES, notes)
        return 0
    except Refusal as refusal:
        end = refusal
    except MemoryError:
        end = Refusal(7, 'out of memory')
    try:
        streams.put(NOTES, end.note)
    except Refusal:
        pass                    # nobody is there to be told
    return end.status
