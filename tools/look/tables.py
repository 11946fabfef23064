"""The tables of a run over time, as CSV files with a header each."""
import csv
import os

from model.holdings import OF_CLASS
from shared import ends
from shared.ends import Stop

from course import acts_of, counts_of

HEADS = {
    'series': ['position', 'line', 'live_blocks', 'live_bytes', 'used_pages', 'resident_pages', 'frag', 'nones', 'coverage'],
    'hugepages': ['position', 'hugepage', 'kind', 'used', 'runs', 'backed', 'longest', 'donated'],
    'holdings': ['position', 'class', 'size', 'blocks', *OF_CLASS],
    'unused': ['position', 'filler', 'region', 'free'],
    'slabs': ['position', 'cpu', 'class', 'bytes'],
    'caches': ['position', 'thread', 'class', 'bytes'],
    'acts': ['act', 'count'],
    'cost': ['what', 'count']}


class Folder:
    """A folder of tables, or one in such a folder. A file that is there is replaced if it begins with its table's header,
    or with `force`."""

    def __init__(self, path, force, inputs, is_of_another=False):
        self.path, self.force, self.inputs, self.is_of_another = path, force, inputs, is_of_another

    def look_ahead(self):
        """Refuses before the work begins what can't be written at its end."""
        if os.path.isdir(self.path):
            for name in HEADS:
                self.look_at(name)
        elif os.path.lexists(self.path):
            raise Stop('%s is no folder' % self.path)
        elif self.is_of_another:
            return
        else:
            ends.can_be_written(self.path.rstrip('/'))

    def look_at(self, name):
        path = os.path.join(self.path, name + '.csv')
        ends.can_be_written(path)
        ends.can_be_replaced(path, [header(name).encode()], self.force, self.inputs)

    def write(self, look, table):
        """All tables that a run has."""
        os.makedirs(self.path, exist_ok=True)
        for name, rows in tables_of(look, table):
            path = os.path.join(self.path, name + '.csv')
            with ends.written(path, lambda: self.look_at(name)) as file:
                file.write(header(name))
                csv.writer(file, lineterminator='\n').writerows(rows)


def header(name):
    return ','.join(HEADS[name]) + '\n'


def tables_of(look, table):
    """The name and the rows of each."""
    yield 'series', series_rows(look.points)
    yield 'hugepages', hugepage_rows(look.points)
    if look.watched is None:
        return
    samples = look.watched.samples
    yield 'holdings', holding_rows(samples, table)
    yield 'unused', unused_rows(samples)
    yield 'slabs', front_rows(samples, 'slabs')
    yield 'caches', front_rows(samples, 'caches')
    yield 'acts', acts_of(look.watched)
    yield 'cost', counts_of(look.watched)


def series_rows(points):
    for point in points:
        yield [*point[:-2], '' if point.covered is None else '%.4f' % point.covered]


def hugepage_rows(points):
    return ([point.position, number, *row] for point in points for number, row in enumerate(point.rows, 1))


def holding_rows(samples, table):
    for sample in samples:
        for row, parts, blocks in zip(table, sample.held.classes, sample.held.blocks):
            if any(parts):
                yield [sample.position, row.number, row.size, blocks, *parts]
        if any(sample.held.large):
            yield [sample.position, 'large', '', sample.held.blocks[-1], *sample.held.large]


def unused_rows(samples):
    return ([sample.position, *(sample.held.unused[kind] for kind in ('filler', 'region', 'free'))]
            for sample in samples)


def front_rows(samples, name):
    """What each CPU's slab, or each thread's cache, has of each class."""
    return ([sample.position, place, number, held] for sample in samples
            for place, front in enumerate(getattr(sample.held, name)) for number, held in enumerate(front) if held)
