"""The page heap: hugepages, and where runs of pages are placed. Hugepage h has the pages from h × 256 on."""
import bisect
import collections
import itertools
import operator

PAGE = 8192             # bytes of a page
PAGES = 256             # pages of a hugepage
WHOLE = frozenset(range(PAGES))
NONE = frozenset()
NUMBER = operator.attrgetter('number')


class Hugepage:
    """What stands of it is changed by the four calls below alone, which keep its measures and its counts."""

    def __init__(self, number):
        self.number = number
        self.kind = 'free'
        self.donated = False
        self.runs = []          # the live runs with a page in it, sorted
        self.backed = NONE      # which of its 256 pages are backed
        self.gains = 0          # how often it got its first backed page,
        self.losses = 0         # and how often it lost its last one
        self.measure()

    def measure(self):
        self.ranges = unused_ranges(self.runs, self.number * PAGES, (self.number + 1) * PAGES)
        self.longest = longest(self.ranges)
        self.used = PAGES - sum(length for _, length in self.ranges)

    def hold(self, run):
        bisect.insort(self.runs, run)
        self.measure()

    def let_go(self, run):
        self.runs.remove(run)
        self.measure()

    def back(self, pages):
        if pages and not self.backed:
            self.gains += 1
        self.backed |= pages

    def keep_backed(self, pages):
        """Unbacks all others, and tells how many were backed."""
        before = len(self.backed)
        self.backed &= pages
        if before and not self.backed:
            self.losses += 1
        return before - len(self.backed)

    def pages_of(self, run):
        """Which of its pages a run holds, from 0."""
        start = run[0] - self.number * PAGES
        return frozenset(range(max(start, 0), min(start + run[1], PAGES)))

    def used_pages(self):
        return NONE.union(*(self.pages_of(run) for run in self.runs))

    def is_whole(self):
        return len(self.backed) == PAGES

    def tier(self):
        return 2 if not self.is_whole() else 1 if self.donated else 0

    def book(self):
        """Its kind, but that free ones are apart by whether they are backed."""
        return 'free and backed' if self.kind == 'free' and self.backed else self.kind

    def row(self, before=0):
        """Its line in the text, where so many others are numbered before the first of its heap."""
        return 'h %d %s %d %d %d %d %d' % (before + self.number, self.kind, self.used, len(self.runs), len(self.backed),
                                           self.longest, self.donated)


def unused_ranges(runs, first, end):
    """The maximal ranges (start, pages) without a page of these sorted runs, from page `first` on and below `end`."""
    ranges, at = [], first
    for start, pages in runs:
        if start > at:
            ranges.append((at, start - at))
        at = max(at, start + pages)
    return ranges + [(at, end - at)] if at < end else ranges


def adjacent(numbers):
    """Rising numbers as maximal ranges (first, how many)."""
    ranges = []
    for number in numbers:
        if ranges and sum(ranges[-1]) == number:
            ranges[-1] = (ranges[-1][0], ranges[-1][1] + 1)
        else:
            ranges.append((number, 1))
    return ranges


def longest(ranges):
    return max((length for _, length in ranges), default=0)


def best_start(ranges, number):
    """The start of the shortest range that is long enough, of several the first; None where there is none."""
    return min(((length, start) for start, length in ranges if length >= number), default=(0, None))[1]


class Heap:
    def __init__(self, heads):
        self.cache, self.window, self.region, self.slack = (
            heads[name] for name in ('cache', 'window', 'region', 'slack'))
        self.at = {number: Hugepage(number) for number in range(1, heads['huge'] + 1)}
        self.books = {book: {} for book in ('free', 'free and backed', 'filler', 'run', 'region')}
        self.books['free'].update(self.at)      # in each book the hugepages that stand there, by their numbers
        self.regions = {}       # the first hugepage of each region: its unused ranges
        self.counts = collections.deque(maxlen=self.window)     # hugepages in use behind each of the last calls

    def changes(self, page, kind, backed=None):
        """From here on a hugepage is of this kind, and only these of its pages are backed, if some are told."""
        del self.books[page.book()][page.number]
        page.kind = kind
        given = 0 if backed is None else page.keep_backed(backed)
        self.books[page.book()][page.number] = page
        return given

    def hugepages_of(self, run):
        return [self.at[number] for number in range(run[0] // PAGES, (run[0] + run[1] - 1) // PAGES + 1)]

    def of_kind(self, kind):
        """Those of a kind that isn't free, in any order."""
        return self.books[kind].values()

    def free_backed(self):
        """By rising number."""
        return sorted(self.books['free and backed'].values(), key=NUMBER)

    def free_numbers(self):
        """Of all free ones, rising."""
        return sorted([*self.books['free'], *self.books['free and backed']])

    def is_in_region(self, run):
        return self.at[run[0] // PAGES].kind == 'region'

    def in_region(self, first):
        return [self.at[number] for number in range(first, first + self.region)]

    def measure_region(self, run):
        """Behind a change in the one in which a run lies."""
        first = max(first for first in self.regions if first <= run[0] // PAGES)
        runs = {run for page in self.in_region(first) for run in page.runs}
        self.regions[first] = unused_ranges(sorted(runs), first * PAGES, (first + self.region) * PAGES)
        return first

    def slack_with(self, number):
        """Unused pages of donated hugepages, and those that so many pages would leave of whole hugepages."""
        return sum(PAGES - page.used for page in self.of_kind('filler') if page.donated) + -number % PAGES

    # Choices.

    def filler_choice(self, number):
        """A place in the filler: in the hugepage of least tier, the tightest one, with most runs, the first one."""
        fits = [page for page in self.of_kind('filler') if page.longest >= number]
        best = min(fits, default=None, key=lambda page: (page.tier(), page.longest, -len(page.runs), page.number))
        return best_start(best.ranges, number) if best else None

    def run_choice(self, number):
        """The first of so many adjacent free hugepages, backed ones or else any, in the shortest range of them."""
        start = best_start(adjacent([page.number for page in self.free_backed()]), number)
        if start is None:
            start = best_start(adjacent(self.free_numbers()), number)
        return start

    def region_choice(self, number):
        """A place in the tightest region, of several the first."""
        keys = [(longest(ranges), first) for first, ranges in self.regions.items()]
        fits = [key for key in keys if key[0] >= number]
        return best_start(self.regions[min(fits)[1]], number) if fits else None

    # A new run of so many pages. Each way answers its first page, or None, and then nothing has changed.

    def new(self, number):
        if number < PAGES:
            start = self.place_in_filler(number)
        elif number % PAGES == 0 or number > self.region * PAGES:
            start = self.place_in_whole(number)
        else:
            start = self.place_in_region(number)
        if start is None:
            return None
        self.hold((start, number))
        self.settle()
        return start, number

    def place_in_filler(self, number):
        """A place there, or a free hugepage for it."""
        start = self.filler_choice(number)
        if start is None:
            first = self.run_choice(1)
            if first is None:
                return None
            self.changes(self.at[first], 'filler')
            self.at[first].back(WHOLE)
            start = first * PAGES
        return start

    def place_in_whole(self, number):
        """Whole hugepages. Where the last one isn't filled, its tail is donated to the filler."""
        first = self.run_choice(-(-number // PAGES))
        if first is None:
            return None
        for page in self.hugepages_of((first * PAGES, number)):
            self.changes(page, 'run')
            page.back(WHOLE)
        if number % PAGES:
            self.changes(page, 'filler')
            page.donated = True
        return first * PAGES

    def place_in_region(self, number):
        """A place in a region, or in a new one where much is slack; else whole hugepages."""
        start = self.region_choice(number)
        if start is not None:
            return start
        first = self.run_choice(self.region)
        if first is None or self.slack_with(number) < self.slack:
            return self.place_in_whole(number)
        self.regions[first] = [(first * PAGES, self.region * PAGES)]
        for page in self.in_region(first):
            self.changes(page, 'region')
        return first * PAGES

    def hold(self, run):
        """The run is live, and its pages are backed; hugepages of a region are backed whole."""
        for page in self.hugepages_of(run):
            page.hold(run)
            if not page.is_whole():
                page.back(WHOLE if page.kind == 'region' else page.pages_of(run))
        if self.is_in_region(run):
            self.measure_region(run)

    # Giving back.

    def free(self, run):
        for page in self.hugepages_of(run):
            page.let_go(run)
            if page.kind == 'run':
                self.changes(page, 'free')
            elif page.kind == 'filler' and not page.runs:
                page.donated = False
                self.changes(page, 'free', WHOLE if page.is_whole() else NONE)
        if self.is_in_region(run):
            self.free_in_region(run)
        self.settle()

    def free_in_region(self, run):
        """A region without used pages ends."""
        first = self.measure_region(run)
        if not any(page.runs for page in self.in_region(first)):
            del self.regions[first]
            for page in self.in_region(first):
                self.changes(page, 'free')

    def settle(self):
        """Behind a new run and a free: the use is noted, and free hugepages beyond the limit are unbacked, the
        greatest first."""
        if self.window > 0:
            self.counts.append(sum(len(self.books[kind]) for kind in ('filler', 'run', 'region')))
        limit = self.limit()
        if len(self.books['free and backed']) > limit:
            for page in self.free_backed()[limit:]:
                self.changes(page, 'free', NONE)

    def limit(self):
        """How many free hugepages may stay backed."""
        if self.window == 0:
            return self.cache
        return min(self.cache, max(self.counts) - self.counts[-1])

    def release(self, number):
        """Unbacks so many pages or more, and tells how many: of free hugepages from the greatest on, of unused ones
        of regions likewise, and then of the filler's, the emptiest first, of several the greatest."""
        unused = [page for page in sorted(self.of_kind('region'), key=NUMBER) if page.backed and not page.runs]
        filler = sorted([page for page in self.of_kind('filler') if len(page.backed) > page.used],
                        key=lambda page: (page.used, -page.number))
        given = 0
        for page in self.free_backed()[::-1] + unused[::-1] + filler:
            if given >= number:
                break
            given += self.changes(page, page.kind, page.used_pages())
        return given

    # Counts.

    def in_use(self):
        return itertools.chain(self.of_kind('filler'), self.of_kind('run'), self.of_kind('region'))

    def used(self):
        return sum([page.used for page in self.in_use()])

    def resident(self):
        return sum([len(page.backed) for page in itertools.chain(self.in_use(), self.free_backed())])

    def covered(self):
        """The used pages that lie in wholly backed hugepages."""
        return sum([page.used for page in self.in_use() if page.is_whole()])
