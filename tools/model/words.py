"""The grammar of the command line."""
import collections

from .lines import number
from .refusal import Refusal

# Of each command the options that it wants, and those that it may have.
COMMANDS = {
    'serial': (['--classes'], ['--rows', '--sample']),
    'order': (['--classes', '--order'], ['--rows', '--sample']),
    'workers': (['--classes'], ['--locks', '--rows', '--sample']),
    'perthread': (['--classes'], ['--order', '--workers', '--rows']),
    'numa': (['--classes', '--nodes'], ['--order', '--workers', '--rows']),
    'gen': (['--classes', '--seed', '--calls', '--threads'], []),
    'audit': (['--classes', '--journal'], []),
}
SWITCHES = ['--rows', '--workers']
NUMBERS = {'--nodes': (1, 8), '--sample': (1, 1073741824), '--seed': (0, 2147483647), '--calls': (1, 500000),
           '--threads': (1, 64)}

# What is asked for: a command, and the value of each option that was given.
Task = collections.namedtuple('Task', 'command values')


def value_of(option, word):
    """What a word says as an option's value, or None if it has another form."""
    if option in NUMBERS:
        return number(word, *NUMBERS[option])
    if option == '--locks':
        return word if word in ('one', 'parts') else None
    return word if word and not word.startswith('-') else None


def values_of(words, options):
    """The value of each option, or None if the words have another form. Each comes once."""
    values, rest = {}, list(words)
    while rest:
        option = rest.pop(0)
        if option not in options or option in values:
            return None
        values[option] = True if option in SWITCHES else value_of(option, rest.pop(0)) if rest else None
        if values[option] is None:
            return None
    return values


def is_text(word):
    """Whether the bytes of a word are UTF-8. What isn't has surrogates in place of them."""
    return not any('\ud800' <= letter <= '\udfff' for letter in word)


def task_of(words):
    """What the words ask for. All others are refused."""
    command, *rest = words or ['']
    wanted, others = COMMANDS.get(command, ([], []))
    values = values_of(rest, wanted + others) if wanted and all(map(is_text, words)) else None
    if values is None or any(option not in values for option in wanted) or {'--order', '--workers'} <= set(values):
        raise Refusal(2, 'usage')
    return Task(command, values)
