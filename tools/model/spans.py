"""Spans of objects, and what stands behind the CPUs for a class. A run is (first page, pages)."""
import bisect

from .heap import PAGE


class Span:
    """A run of pages that is cut into objects."""

    def __init__(self, run, row):
        self.run = run
        self.row = row
        first = run[0] * PAGE
        self.objects = range(first, first + run[1] * PAGE // row.size * row.size, row.size)
        self.free = list(self.objects)      # sorted

    def taken(self):
        return len(self.objects) - len(self.free)

    def take(self):
        return self.free.pop(0)

    def put(self, address):
        bisect.insort(self.free, address)


def take_last(objects, number):
    """Takes up to so many off a list's end, the last one first."""
    taken = objects[-number:][::-1]
    del objects[-number:]
    return taken


def put_whole(objects, place, room):
    """Whether a list fits whole in one with room for so many; then it is appended."""
    if len(place) + len(objects) > room:
        return False
    place.extend(objects)
    return True


class Shard:
    """What stands behind the CPUs for a class."""

    def __init__(self, room):
        self.transfer, self.room = [], room
        self.spans = {}         # by their first pages

    def fetch(self, number):
        """The last objects of the transfer list; where it is empty, objects of spans, one by one. The span that gave
        one has most taken objects still, so it gives until it has none."""
        if self.transfer:
            return take_last(self.transfer, number)
        objects = []
        while len(objects) < number:
            span = self.fullest()
            if span is None:
                break
            while span.free and len(objects) < number:
                objects.append(span.take())
        return objects

    def fullest(self):
        """Of the spans with a free object, the one with most taken ones, of several the first."""
        return min((span for span in self.spans.values() if span.free), default=None,
                   key=lambda span: (-span.taken(), span.run[0]))

    def add_fetch(self, span, number):
        """The span joins, and its first objects are taken."""
        self.spans[span.run[0]] = span
        return [span.take() for _ in range(min(number, len(span.objects)))]

    def span_of(self, address):
        """The span that has an object. Those of a class have as many pages each, so it begins in one of these."""
        page = address // PAGE
        return next(span for span in (self.spans.get(page - back) for back in range(256))
                    if span and address in span.objects)

    def give(self, objects):
        """All to the transfer list, or each to its span. Answers the spans that left, as all of them was free."""
        if put_whole(objects, self.transfer, self.room):
            return []
        freed = []
        for address in objects:
            span = self.span_of(address)
            span.put(address)
            if span.taken() == 0:
                del self.spans[span.run[0]]
                freed.append(span)
        return freed
