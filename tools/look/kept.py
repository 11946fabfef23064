"""The rows of a sweep that are done, in a CSV file that is whole after each of them."""
import csv
import hashlib
import io
import os
import stat

from shared import ends

from sweeping import MEASURES, NUMBERS, OF_PEAK

MOST_HEADER = 4096              # bytes of the header of a table


class Kept:
    """A row's key is made of all that it comes of. What stands under the file's name is replaced only if it begins with the
    header of a sweep, or with `force`; an input, a link or a device never."""

    def __init__(self, path, heads, inputs, force=False, never=()):
        self.path, self.columns = path, ['trace', *heads, *MEASURES, 'key']
        self.inputs, self.force, self.never = inputs, force, never
        self.look_ahead()
        self.rows = self.read()

    def look_ahead(self):
        ends.can_be_written(self.path)
        ends.can_be_replaced(self.path, header_of(self.path), self.force, self.never)

    def key(self, case, data):
        named = repr((case.heads, *self.inputs)).encode()
        return hashlib.sha256(named + b'\0' + data).hexdigest()[:20]

    def read(self):
        """The rows that are there. One that isn't whole is made again."""
        try:
            text = ends.read_bytes(self.path).decode()
            rows = csv.DictReader(io.StringIO(text, newline=''))
            if rows.fieldnames != self.columns:
                return {}
            return {row['key']: as_numbers(row) for row in rows if is_whole(row)}
        except (FileNotFoundError, UnicodeDecodeError, csv.Error):
            return {}

    def add(self, key, row):
        self.rows[key] = dict(row, key=key)
        self.write(self.rows.values())

    def write(self, rows):
        with ends.written(self.path, self.look_ahead) as file:
            writer = csv.DictWriter(file, self.columns, lineterminator='\n')
            writer.writeheader()
            writer.writerows(rows)


def header_of(path):
    """The beginning of a file that is a sweep's table of whatever heads, as a list; of another file none."""
    if not os.path.lexists(path) or not stat.S_ISREG(os.lstat(path).st_mode):
        return []
    with open(path, 'rb') as file, ends.named(path):
        line = file.readline(MOST_HEADER)
    last = ','.join([*MEASURES, 'key']) + '\n'
    return [line] if line.startswith(b'trace,') and line.endswith(b',' + last.encode()) else []


def is_whole(row):
    """Whether a row has all that a row has."""
    if None in row or None in row.values() or not is_number(row['status']):
        return False
    if row['status'] != '0':
        return True
    told = [name for name in NUMBERS if name not in OF_PEAK or row['peak_resident']]
    return all(is_number(row[name]) for name in told)


def is_number(text):
    return text.isascii() and text.removeprefix('-').isdecimal() and len(text) < 20


def as_numbers(row):
    return {name: int(value) if name in MEASURES and is_number(value) else value for name, value in row.items()}
