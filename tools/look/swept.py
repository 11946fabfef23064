"""What a sweep is asked for: traces, heads with values, and the machine that runs them. A bad word is refused in one line."""
import os

from shared import ends, program, releases
from shared.ends import Stop
from shared.heads import HEADS
from shared.wording import shown

from changed import NONE, RELEASE
from sweeping import Machine

COMMANDS = ('serial', 'perthread', 'numa', 'order')
MOST_BYTES = 67108864           # of a trace
MOST_TABLE = 65536              # of a class table


def is_head(word):
    return '=' in word and not os.path.exists(word)


def heads_of(words):
    """The heads with their values, as they stand among the words."""
    heads = {}
    for word in filter(is_head, words):
        name, _, values = word.partition('=')
        if name not in HEADS and name != RELEASE:
            raise Stop('%s is no head of a trace; heads are %s, and release' % (shown(name) or 'an empty word', ', '.join(HEADS)))
        if name in heads:
            raise Stop('%s is named twice' % name)
        heads[name] = values.split(',')
        check_values(name, heads[name])
    return heads


def check_values(name, values):
    """What can be no field of a line. A number that the head may not have is a row that the program refuses."""
    for value in values:
        if not value:
            raise Stop('%s has an empty value' % name)
        if '\n' in value:
            raise Stop('a value of %s has a line feed' % name)
        if not value.isprintable():
            raise Stop('a value of %s has a control character: %s' % (name, shown(value)))
        if values.count(value) > 1:
            raise Stop('%s has the value %s twice' % (name, value))
        if name == RELEASE and value != NONE:
            releases.of(value)


def traces_of(words):
    """The bytes of each trace by the name that its rows have, and the path of each."""
    paths = [word for word in words if not is_head(word)]
    if not paths:
        raise Stop('a trace is wanted')
    for path in paths:
        if paths.count(path) > 1:
            raise Stop('%s is named twice' % path)
    names = [os.path.basename(path) for path in paths]
    named = {name if names.count(name) == 1 else path: path for name, path in zip(names, paths)}
    return {name: read(path, MOST_BYTES) for name, path in named.items()}, named


def read(path, most):
    """The bytes of a file that has at most so many."""
    with open(path, 'rb') as file, ends.named(path):
        data = file.read(most + 1)
    if len(data) > most:
        raise Stop('%s has more than %d bytes' % (path, most))
    return data


def machine_of(given):
    """The program with its command. Running threads are none: each of their runs may be another."""
    if given.command == 'workers':
        raise Stop('workers is by running threads, and each of its runs may be another: sweep runs %s' % ', '.join(COMMANDS))
    if given.command not in COMMANDS:
        raise Stop('%s is no command that sweep runs; those are %s' % (shown(given.command), ', '.join(COMMANDS)))
    if given.command == 'numa' and given.nodes is None:
        raise Stop('numa wants --nodes N')
    if given.command != 'numa' and given.nodes is not None:
        raise Stop('--nodes is of numa alone, and not of %s' % given.command)
    if given.command == 'order' and given.order is None:
        raise Stop('order wants --order FILE')
    if given.command == 'serial' and given.order is not None:
        raise Stop('--order isn\'t of serial')
    return Machine(program.found(given.program), given.classes, given.command, given.order, given.nodes)


def told(machine):
    """The command in words, and what decides its order."""
    words = machine.command + (' with %d memory nodes' % machine.nodes if machine.nodes is not None else '')
    return words + (', order file %s' % os.path.basename(machine.order) if machine.order is not None else '')


def teller(machine):
    """Whose numbers these are."""
    models = [path for path in program.MODELS if os.path.exists(path)]
    return 'model' if any(os.path.samefile(machine.built, path) for path in models) else 'program'
