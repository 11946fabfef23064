"""Reading of class tables: records of fields, and the rules of a record."""
import collections
import re

from .lines import number
from .refusal import refused_row

Class = collections.namedtuple('Class', 'number size pages batch')

MOST_ROWS = 120
MARK = '\xef\xbb\xbf'                           # a byte order mark, which is dropped
ENDS = re.compile('[\r\n]*')                    # of a record, and of empty lines, which are none
# A field is what stands in quotes at its start, and what comes then up to a comma or an end.
FIELD = re.compile('(?:"((?:[^"]|"")*)"?)?([^,\r\n]*)')


def records_of(text):
    """The fields of each record."""
    at = len(MARK) if text.startswith(MARK) else 0
    at = ENDS.match(text, at).end()
    while at < len(text):
        fields, is_open = [], True
        while is_open:
            field = FIELD.match(text, at)
            fields.append((field[1] or '').replace('""', '"') + field[2])
            is_open = text[field.end():field.end() + 1] == ','
            at = field.end() + is_open
        yield fields
        at = ENDS.match(text, at).end()


def reason(row, above, fields):
    """The first rule that a record fails after a class of so many bytes, or None."""
    if row > MOST_ROWS:
        return 'Rows'
    if len(fields) != 3:
        return 'Fields'
    numbers = [number(field, 0, 1000000) for field in fields]
    if None in numbers:
        return 'Number'
    size, pages, batch = numbers
    rules = [('Size', 8 <= size <= 262144 and size % 8 == 0), ('Rise', size > above), ('Pages', 1 <= pages <= 255),
             ('Fit', size <= pages * 8192), ('Batch', 1 <= batch <= 128)]
    return next((name for name, is_kept in rules if not is_kept), None)


def read_table(text):
    """The classes of a table, by rising size."""
    table = []
    for row, fields in enumerate(records_of(text), 1):
        why = reason(row, table[-1].size if table else 0, fields)
        if why:
            raise refused_row(row, why)
        table.append(Class(len(table), *map(int, fields)))
    if not table:
        raise refused_row(1, 'Empty')
    return table
