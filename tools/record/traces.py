"""Makes traces of recordings. `trace_of` makes one, with what there is to report of it."""
import collections

from shared import heads, releases

import logs

MOST_BYTES = 1 << 40            # the greatest request of a trace
MOST_LINES = 1000000
MOST_LABELS = 1000000
MOST_THREADS = heads.HEADS['threads'].most
MOST_CPUS = heads.HEADS['cpus'].most
MOST_HUGEPAGES = heads.HEADS['huge'].most
LEAST_HUGEPAGES = 64            # a trace asks for no fewer, unless it is told to
HUGEPAGE_BYTES = 2097152
MOST_SEED = 2147483647
OWN_HEADS = ['cpus', 'threads', 'huge']
INSTRUCTIONS = 8                # a preempted call is left before one of its first so many instructions

# Heads that may be asked for by name, with their least and greatest values.
HEADS = {name: head[:2] for name, head in heads.HEADS.items() if name not in OWN_HEADS}

Options = collections.namedtuple('Options', 'cpus threads lines labels moves seed huge head skip every release')
USUAL = Options(cpus=1, threads=MOST_THREADS, lines=MOST_LINES, labels=MOST_LABELS, moves=0, seed=1, huge=None, head=(),
                skip=0, every=1, release=None)
Block = collections.namedtuple('Block', 'label size thread')
TOO_LARGE, NOT_CHOSEN = 'too large', 'not chosen'


class Draws:
    """Numbers below 32768 out of a seed, by a linear congruential generator."""
    def __init__(self, seed):
        self.x = seed

    def below(self, limit):
        self.x = (self.x * 1103515245 + 12345) % 2147483648
        return self.x // 65536 % limit


class Stopped(Exception):
    """The trace ends before a line that would pass a limit."""

    def __init__(self, why, at):
        super().__init__(why)
        self.at = at


class Maker:
    """Makes lines of notes, one after another, and counts what it leaves out."""
    def __init__(self, options):
        self.options = options
        self.draws = Draws(options.seed)
        self.lines = []
        self.numbers = {}       # the recording's number of a thread -> the trace's, as they come
        self.live = {}          # address -> its block, or why that was left out
        self.skipping = options.skip
        self.labels = 0
        self.live_bytes = 0
        self.peak_bytes = 0
        self.counts = collections.Counter()
        self.due = None         # the thread of which a release is due
        self.steps = {
            logs.UNFINISHED: self.unfinished, logs.ALLOCATION: self.allocation, logs.ALIGNED: self.aligned,
            logs.FREE: self.free, logs.MOVED: self.moved, logs.KEPT: self.kept}

    def take(self, address, size, thread, kind):
        if not self.skipping:
            self.steps[kind](address, size, thread)
            return
        self.skip(address, size, thread, kind)
        self.skipping -= 1
        self.counts['skipped'] += 1
        if not self.skipping:
            self.begin_at_cut()

    def skip(self, address, size, thread, kind):
        """Before the cut it only counts which blocks are live."""
        if kind in (logs.FREE, logs.MOVED):
            self.live.pop(address, None)
        elif kind in (logs.ALLOCATION, logs.ALIGNED):
            self.live.pop(address, None)
            self.live[address] = Block(None, size, thread)

    def begin_at_cut(self):
        """The blocks that are live at the cut come first, in the order in which they were allocated."""
        before, self.live = self.live, {}
        for address, block in before.items():
            self.allocation(address, block.size, block.thread)
        self.counts['live at the cut'] = self.counts['allocations']

    def unfinished(self, address, size, thread):
        self.counts['unfinished'] += 1

    def kept(self, address, size, thread):
        """A realloc that failed: the recording's own count has it."""

    def aligned(self, address, size, thread):
        before = self.counts['allocations']
        self.allocation(address, size, thread)
        self.counts['aligned'] += self.counts['allocations'] - before

    def moved(self, address, size, thread):
        before = self.counts['frees']
        self.free(address, size, thread)
        self.counts['frees by realloc'] += self.counts['frees'] - before

    def is_chosen(self, address):
        """One block of so many, by its address, so that its free is chosen with it. Addresses are multiples of 16, and
        are spread by a multiplication, as many are alike in their low bits."""
        if self.options.every == 1:
            return True
        spread = (address >> 4) * 11400714819323198485 % (1 << 64) >> 32
        return spread % self.options.every == 0

    def allocation(self, address, size, thread):
        self.forget(address)
        if size > MOST_BYTES or not self.is_chosen(address):
            why = TOO_LARGE if size > MOST_BYTES else NOT_CHOSEN
            self.counts[why] += 1
            self.live[address] = why
            return
        if self.labels == self.options.labels:
            raise Stopped('the last label is %s' % grouped(self.options.labels - 1),
                          'label %s' % grouped(self.options.labels - 1))
        self.add(thread, 'a %%d %d %d' % (self.labels, size))
        self.live[address] = Block(self.labels, size, thread)
        self.labels += 1
        self.live_bytes += size
        self.peak_bytes = max(self.peak_bytes, self.live_bytes)
        self.counts['allocations'] += 1

    def forget(self, address):
        """A block whose address comes again was freed by a call that isn't recorded. It stays live in the trace."""
        if isinstance(self.live.pop(address, None), Block):
            self.counts['lost'] += 1

    def free(self, address, size, thread):
        block = self.live.get(address)
        if block is None:
            self.counts['unknown'] += 1
            return
        if isinstance(block, Block):
            self.add(thread, 'f %%d %d' % block.label)
            self.live_bytes -= block.size
            self.counts['frees'] += 1
        else:
            self.counts['frees of ' + block] += 1
        del self.live[address]

    def add(self, thread, line):
        """Adds a call's line, and before it, at the rate that was asked for, one that moves its thread."""
        self.release()
        if thread not in self.numbers and len(self.numbers) == self.options.threads:
            raise Stopped('the most threads are %d' % self.options.threads, '%d threads' % self.options.threads)
        move = self.drawn_move()
        self.see_room_for(len(move) + 1)
        number = self.numbers.setdefault(thread, len(self.numbers))
        self.lines += [text % number for text in move + [line]]
        self.counts['moves'] += len(move)
        self.counts['lines of calls'] += 1
        if self.options.release and self.counts['lines of calls'] % self.options.release.lines == 0:
            self.due = number

    def release(self):
        """Adds the release that is due, before whatever comes next."""
        if self.due is not None:
            self.see_room_for(1)
            self.lines.append(releases.line(self.due, self.options.release))
            self.counts['releases'] += 1
            self.due = None

    def see_room_for(self, lines):
        if len(OWN_HEADS) + len(self.options.head) + len(self.lines) + lines > self.options.lines:
            most = '%s lines' % grouped(self.options.lines)
            raise Stopped('the most lines are %s' % grouped(self.options.lines), most)

    def drawn_move(self):
        if not self.options.moves or self.draws.below(1000) >= self.options.moves:
            return []
        instruction = 1 + self.draws.below(INSTRUCTIONS)
        return ['p %%d %d %d' % (instruction, self.draws.below(self.options.cpus))]

    def heads(self):
        """The arena has room for twice the bytes that were live at once, where nothing else was asked for."""
        wanted = -(-2 * self.peak_bytes // HUGEPAGE_BYTES)
        huge = self.options.huge or min(max(wanted, LEAST_HUGEPAGES), MOST_HUGEPAGES)
        own = ['cpus %d' % self.options.cpus, 'threads %d' % max(1, len(self.numbers)), 'huge %d' % huge]
        return own + list(self.options.head)


def heads_of(text):
    """The heads that a trace begins with."""
    for line in text.split('\n', len(OWN_HEADS) + len(HEADS)):
        if line.split(' ')[0] not in heads.HEADS:
            return
        yield line


def grouped(number):
    return '{:,}'.format(number)


# What there is to say of a trace: its text, the counts by what they count, what was left out, why and at what it stopped,
# how many calls came after, and the options that it was made by.
Made = collections.namedtuple('Made', 'text counts left_out remarks peak_bytes stopped at after options')


def trace_of(recording, options):
    maker = Maker(options)
    stop = at = None
    taken = 0
    try:
        for note in recording.notes():
            maker.take(*note)
            taken += 1
        maker.release()
    except Stopped as stopped:
        stop, at = str(stopped), stopped.at
    if not stop and recording.kept < recording.calls:
        at = '%s calls of the log' % grouped(recording.kept)
        stop = 'the log has room for %s calls' % grouped(recording.kept)
    lines = maker.heads() + maker.lines
    counts = {'lines': len(lines), **{name: maker.counts[name] for name in ('allocations', 'frees', 'moves')},
              'threads': len(maker.numbers)}
    return Made(''.join(line + '\n' for line in lines), counts, left_out(recording, maker), remarks(recording, maker),
                maker.peak_bytes, stop, at, recording.calls - taken, options)


def left_out(recording, maker):
    """What was left out, with its number where that isn't 0."""
    counts = maker.counts
    return counted(
        (recording.null_frees, 'frees of null'),
        (counts['unknown'], 'frees of blocks whose allocation wasn\'t recorded'),
        (recording.failures, 'allocations that got nothing'),
        (counts[TOO_LARGE], 'allocations above 2^40 bytes'),
        (counts['frees of ' + TOO_LARGE], 'frees of blocks above 2^40 bytes'),
        (counts[NOT_CHOSEN], 'allocations of blocks that --every leaves out'),
        (counts['frees of ' + NOT_CHOSEN], 'frees of blocks that --every leaves out'),
        (recording.early, 'calls before the log was open'),
        (counts['unfinished'], 'calls that were under way when the process ended'))


def remarks(recording, maker):
    counts = maker.counts
    return counted(
        (counts['skipped'], 'calls were skipped; the blocks that were live then come first'),
        (counts['releases'], 'releases were added: the program asked for none of them'),
        (counts['live at the cut'], 'of these allocations are of blocks that were live at the cut'),
        (counts['frees by realloc'], 'of these frees are by realloc'),
        (counts['aligned'], 'of these allocations asked for an alignment, which a trace doesn\'t have'),
        (counts['lost'], 'never freed in the trace, though their address was given again')) + [
            (None, remark) for remark in recording.remarks]


def counted(*rows):
    return [(count, what) for count, what in rows if count]
