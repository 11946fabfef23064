"""Which run of a trace is looked at: the one that the words ask for, or else the one that a file beside the trace does."""
import collections
import os

from shared import ends, program
from shared.ends import Stop
from shared.heads import HEADS

COMMANDS = ('serial', 'order', 'perthread', 'numa', 'workers')
MOST_NODES = 8
SAYS = ('command', 'order', 'nodes', 'workers')     # words that say which machine is meant
OF_FILE = {'--classes': 'classes', '--order': 'order', '--nodes': 'nodes'}
WITHOUT_EFFECT = ('--sample', '--locks')            # on what a run can come to

# `whence` is the file that said so, or None if the words did.
Run = collections.namedtuple('Run', 'trace classes command order nodes workers heads whence')


def run_of(trace, said, heads=()):
    """The run that a dict of words asks for."""
    known, whence = ({}, None) if set(SAYS) & set(said) else beside(trace)
    said = {**known, **said}
    command = said.get('command', 'order' if 'order' in said else 'serial')
    run = Run(trace, said.get('classes', program.USUAL_TABLE), command, said.get('order'), said.get('nodes'),
              said.get('workers', False), tuple(heads), whence)
    check(run)
    return run


def beside(trace):
    """What the files beside an example say, and the name of the file that says it: NAME.words, or else NAME.order."""
    stem = trace[:-len('.trace')] if trace.endswith('.trace') else trace
    if os.path.isfile(stem + '.words'):
        return words_in(stem + '.words'), os.path.basename(stem) + '.words'
    if not os.path.isfile(stem + '.order'):
        return {}, None
    table = os.path.join(os.path.dirname(trace), 'T0.csv')
    known = {'command': 'order', 'order': stem + '.order'}
    return dict(known, classes=table) if os.path.isfile(table) else known, os.path.basename(stem) + '.order'


def words_in(path):
    """The words of a NAME.words, whose files are named from its own folder."""
    try:
        command, *rest = ends.read_bytes(path).decode().split()
    except ValueError:
        raise Stop('%s has no words of a run; --command says which is meant' % path) from None
    if command not in COMMANDS:
        raise Stop('%s says %s, which is no run that can be looked at; --command says another' % (path, command))
    known, left = {'command': command}, iter(rest)
    for word in left:
        if word == '--workers':
            known['workers'] = True
        elif word in OF_FILE:
            value = next(left, '')
            known[OF_FILE[word]] = value if word == '--nodes' else os.path.join(os.path.dirname(path), value)
        elif word in WITHOUT_EFFECT:
            next(left, '')
        elif word != '--rows':
            raise Stop('%s has the word %s, which isn\'t known; --command says which run is meant' % (path, word))
    return known


def check(run):
    """The words must fit each other, as the program asks."""
    if run.command not in COMMANDS:
        raise Stop('%s is no command that can be looked at; those are %s' % (run.command, ', '.join(COMMANDS)))
    if run.command == 'numa' and run.nodes is None:
        raise Stop('numa wants --nodes N')
    if run.command != 'numa' and run.nodes is not None:
        raise Stop('--nodes is of numa alone, and not of %s' % run.command)
    if run.nodes is not None and run.nodes not in map(str, range(1, MOST_NODES + 1)):
        raise Stop('--nodes is a number from 1 to %d, and not %s' % (MOST_NODES, run.nodes))
    if run.command == 'order' and not run.order:
        raise Stop('order wants --order FILE')
    if run.order is not None and run.command in ('serial', 'workers'):
        raise Stop('--order isn\'t of %s' % run.command)
    if run.workers and (run.command not in ('perthread', 'numa') or run.order is not None):
        raise Stop('--workers is of perthread and numa alone, and not beside --order')


def second(first, said, words):
    """The run that is laid over the first one: another trace, or the same under the heads and words that are named."""
    heads, named, trace = {}, {}, None
    for word in words:
        name, equals, value = word.partition('=')
        if not equals or os.path.exists(word):
            if trace is not None:
                raise Stop('--beside takes one trace, and not %s and %s' % (trace, word))
            trace = word
        elif name in heads or name in named:
            raise Stop('--beside has %s twice' % name)
        elif name in HEADS:
            heads[name] = head_of(name, value)
        elif name in ('command', 'classes', 'order', 'nodes'):
            named[name] = value
        else:
            raise Stop('--beside has %s, which is no head of a trace, nor command, classes, order or nodes' % name)
    if trace is None:
        said = {name: value for name, value in first._asdict().items() if name in (*SAYS, 'classes') and value}
    if 'command' in named:
        said = {name: value for name, value in said.items() if name == 'classes'}
    return run_of(trace or first.trace, {**said, **named}, heads.items())


def head_of(name, value):
    least, most, _ = HEADS[name]
    if not (value.isascii() and value.isdecimal() and str(int(value[:20])) == value and least <= int(value) <= most):
        raise Stop('the head %s is a number from %d to %d, and not %s' % (name, least, most, value))
    return value


def words_of(run):
    """The words of the program."""
    words = [run.command, '--classes', run.classes, '--rows']
    words += ['--order', run.order] if run.order is not None else []
    words += ['--nodes', run.nodes] if run.nodes is not None else []
    return words + (['--workers'] if run.workers else [])


def is_one_of_many(run):
    """Whether running threads decide, so that the next run may be another."""
    return run.command == 'workers' or run.workers


def machine(run):
    """The command in words, and what decides its order."""
    named = os.path.basename(run.order or '')
    told = {'numa': 'numa with %s memory nodes' % run.nodes, 'order': 'order ' + named}.get(run.command, run.command)
    told += ', order %s' % named if run.order and run.command != 'order' else ''
    return told + (' by running threads' if run.workers else '')


def told(run):
    """The run in words, with its table and heads, and which file asked for it."""
    said = [machine(run), 'class table ' + os.path.basename(run.classes)]
    said += ['head %s %s' % head for head in run.heads]
    return ', '.join(said) + (', as %s says' % run.whence if run.whence else '')
