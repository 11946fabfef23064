"""The options of a trace, which recording and importing have in common."""
import argparse

from shared import releases
from shared.ends import Stop
from shared.wording import number, utf8

import traces


def head(word):
    name, _, value = word.partition(' ')
    if name not in traces.HEADS:
        raise argparse.ArgumentTypeError('%s is none of %s' % (name or 'nothing', ', '.join(traces.HEADS)))
    return '%s %d' % (name, number(*traces.HEADS[name])(value))


def release(word):
    try:
        return releases.of(word)
    except Stop as stop:
        raise argparse.ArgumentTypeError(stop) from None


def folder(word):
    if not word:
        raise argparse.ArgumentTypeError('a folder\'s name is wanted')
    return utf8(word)


def add_to(parser):
    usual = traces.USUAL
    option = parser.add_argument
    option('--cpus', metavar='N', type=number(1, traces.MOST_CPUS), default=usual.cpus,
           help='the head cpus, 1 to 64 (1 if not said)')
    option('--huge', metavar='N', type=number(1, traces.MOST_HUGEPAGES),
           help='the head huge, 1 to 4096 (if not said, room for twice the bytes live at once, and at least 64)')
    option('--head', metavar="'NAME N'", type=head, action='append', default=[],
           help='a further head of the trace, as \'transfer 16\'; may come several times')
    option('--skip', metavar='N', type=number(0, 1 << 40), default=usual.skip,
           help='the trace begins behind so many calls; the blocks that are live then come first (0)')
    option('--every', metavar='K', type=number(1, 1000000), default=usual.every,
           help='one block of K, by its address, with its free (1)')
    option('--moves', metavar='N', type=number(0, 1000), default=usual.moves,
           help='of a thousand calls, about so many get a line `p`: their thread is preempted and moved (0)')
    option('--seed', metavar='N', type=number(0, traces.MOST_SEED), default=usual.seed,
           help='from which those calls, their instructions and CPUs are drawn (1)')
    option('--release', metavar='L/N', type=release,
           help='after each L lines of calls a line `r` of N pages, of the thread of the line before')
    option('--threads', metavar='N', type=number(1, traces.MOST_THREADS), default=usual.threads,
           help='the trace stops where a further thread comes, 1 to 64 (64)')
    option('--lines', metavar='N', type=number(len(traces.OWN_HEADS), traces.MOST_LINES), default=usual.lines,
           help='the trace stops where a call would pass so many lines, 3 to 1000000 (1000000)')
    option('--labels', metavar='N', type=number(1, traces.MOST_LABELS), default=usual.labels,
           help='the trace stops where so many labels are used, 1 to 1000000 (1000000)')


def see_heads(parser, given):
    """A head that is named twice would be the later one of them, so it is refused."""
    names = [head.split(' ')[0] for head in given.head]
    for name in names:
        if names.count(name) > 1:
            parser.error('argument --head: %s is named twice' % name)


def of(given):
    return traces.Options(*(getattr(given, field) for field in traces.Options._fields))
