"""Caches of threads, with limits of which others may take what is unused; and no caches at all.

A front has three generators, whose `yield` stands before each act as in slabs: `take` an object for an allocation,
`stock` what a batch has beside it, and `put` a freed one. What is in hand behind the last two goes further back.
"""
from .spans import take_last


class Cache:
    """A list of objects for each class, of at most so many bytes together."""

    def __init__(self, table, limit):
        self.table, self.limit = table, limit
        self.objects = [[] for _ in table]

    def bytes(self):
        return sum(len(objects) * row.size for objects, row in zip(self.objects, self.table))

    def pop(self, row):
        return take_last(self.objects[row.number], 1)

    def add(self, row, hand):
        """As many of the hand's first objects as the limit allows leave it."""
        count = min(len(hand), (self.limit - self.bytes()) // row.size)
        self.objects[row.number] += hand[:count]
        del hand[:count]

    def give_up(self, most):
        """The limit falls by what is unused of it, and at most so much."""
        given = min(self.limit - self.bytes(), most)
        self.limit -= given
        return given


class CachesOfThreads:
    """The front of caches. One that has no room for a freed object takes bytes of another's limit, or sheds a batch."""

    is_of_cpus = False

    def __init__(self, heads, table):
        self.caches = [Cache(table, heads['percpu']) for _ in range(heads['threads'])]
        self.victims = [0 for _ in self.caches]     # how many others each thread has asked, over all calls

    def take(self, thread, row):
        yield 'own cache', 'Pop'
        return self.caches[thread.number].pop(row)

    def stock(self, thread, row):
        yield 'own cache', 'Stock'
        self.caches[thread.number].add(row, thread.hand)

    def victim(self, thread):
        """The thread behind the one that was asked last, in a circle without the thread itself."""
        others = len(self.caches) - 1
        place = self.victims[thread.number] % others
        self.victims[thread.number] += 1
        return self.caches[(thread.number + 1 + place) % len(self.caches)]

    def put(self, thread, row):
        own = self.caches[thread.number]
        yield 'own cache', 'Add'
        own.add(row, thread.hand)
        if not thread.hand:
            return
        if len(self.caches) > 1:
            yield "another's cache", 'Ask'
            given = self.victim(thread).give_up(row.batch * row.size)
            if given:
                yield 'own cache', 'Raise'
                own.limit += given
                yield 'own cache', 'AddAgain'
                own.add(row, thread.hand)
                if not thread.hand:
                    return
        yield 'own cache', 'Trim'
        thread.hand += take_last(own.objects[row.number], row.batch)


class NoCaches:
    """No front: each object comes from its shard, and goes back to it."""

    is_of_cpus = False

    def __init__(self, heads, table):
        pass

    def take(self, thread, row):
        yield from ()
        return []

    def stock(self, thread, row):
        yield from ()

    def put(self, thread, row):
        yield from ()
