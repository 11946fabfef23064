"""The lines of a text, their fields, and what a number is."""
import re

MOST_LINES = 1000000
is_number = re.compile('0|[1-9][0-9]{0,19}').fullmatch          # no limit has more digits


def number(field, least, most):
    """The number of a field, or None if it is no canonical decimal from one number to the other."""
    if is_number(field) is None:
        return None
    value = int(field)
    return value if least <= value <= most else None


def fields_of(text):
    """The fields of each line. A carriage return at a line's end is dropped, and only one."""
    lines = text.split('\n')
    if lines[-1] == '':
        lines.pop()
    return ((line[:-1] if line.endswith('\r') else line).split(' ') for line in lines)
