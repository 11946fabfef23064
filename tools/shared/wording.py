"""How a tool reads its words: each that is faulty is named in one line, with status 2."""
import argparse
import re
import sys

from . import ends

NUMBER = re.compile('0|[1-9][0-9]{0,18}', re.ASCII)


class Parser(argparse.ArgumentParser):
    """A parser whose refusal is one line. Words stand in full, and those of the tool itself are UTF-8."""

    def __init__(self, **given):
        super().__init__(usage=argparse.SUPPRESS, allow_abbrev=False, formatter_class=argparse.RawDescriptionHelpFormatter,
                         **given)

    def error(self, message):
        ends.say('%s: %s' % (self.prog, shown(' '.join(message.split()))))
        sys.exit(2)

    def print_help(self, file=None):
        print(self.format_help(), end='', file=file)


def shown(text):
    """A text in which each character can be printed."""
    return ''.join(char if char.isprintable() else ascii(char)[1:-1] for char in text)


def utf8(word):
    """A word that is UTF-8, as it is."""
    if not is_utf8(word):
        raise argparse.ArgumentTypeError('%s isn\'t UTF-8' % ascii(word))
    return word


def is_utf8(word):
    try:
        word.encode()
    except UnicodeEncodeError:
        return False
    return True


def is_number(word, least, most):
    return NUMBER.fullmatch(word) is not None and least <= int(word) <= most


def number(least, most):
    """A reader of a number of these, as a canonical decimal."""
    def read(word):
        if not is_number(word, least, most):
            raise argparse.ArgumentTypeError('a number from %d to %d is wanted' % (least, most))
        return int(word)
    return read
