"""Watches a run of the model: what it cost, and what held the memory at some moments, which lie evenly over what was done."""
import collections
import multiprocessing
import os
import signal
import time

from shared.ends import Stop
from shared.program import progress_bar

# What stood after so many calls, or moved picks (its position), of which the last one is of this line of the trace.
Sample = collections.namedtuple('Sample', 'position calls moved line live used resident nones covered blocks rows held')
Watched = collections.namedtuple('Watched', 'samples acts gains losses moved calls is_whole seconds peak live_peak text')

# What is watched. Moments are counted by moved picks or by ended calls; `number` of them are kept at most, or all, and
# those of `wanted` in any case, or if none is wanted, the peaks are found. `until` is the last one, after which nothing
# is run.
Plan = collections.namedtuple('Plan', 'table trace order command nodes by_moves number wanted until seconds')

CHECKED = 1024                  # how many acts go by between two looks at the clock
FINEST = 2048                   # moments of a whole run that are looked at, before most of them go


class Enough(Exception):
    """The time given is over, or all that was wanted is done."""


def watched(plan):
    """Runs the model in a process of its own."""
    ours, theirs = multiprocessing.Pipe(duplex=False)
    process = multiprocessing.Process(target=watch, daemon=True, args=(theirs, plan))
    process.start()
    theirs.close()
    try:
        came = ours.recv()
    except EOFError:
        raise Stop('the model couldn\'t be run to its end: it had no memory') from None
    finally:
        process.terminate()
        process.join()
    if isinstance(came, str):
        raise Stop(came)
    return came


def watch(pipe, plan):
    """What the process does."""
    signal.signal(signal.SIGINT, signal.SIG_IGN)
    signal.signal(signal.SIGTERM, signal.SIG_DFL)
    try:
        import model
        replay = model.Replay(plan.table, plan.trace, plan.order, command=plan.command, nodes=plan.nodes)
        with progress_bar(len(replay.calls), 'model', 'calls') as progress:
            replay.listener = Watcher(plan, len(replay.calls), progress)
            pipe.send(replay.listener.run(replay))
    except MemoryError:
        os._exit(1)
    except (ValueError, LookupError, TypeError):
        pipe.send('the model can\'t run this: table, trace or order file has a bad line')


class Watcher:
    def __init__(self, plan, calls, progress):
        self.plan, self.progress = plan, progress
        self.begun = time.monotonic()
        self.step = 1 if plan.number is None else max(1, calls // FINEST)
        self.even, self.wanted = [], {}
        self.acts, self.peak, self.live_peak = collections.Counter(), (0, 0), (0, 0)
        self.position, self.last_call, self.is_over, self.is_heap_moved = 0, None, False, False

    def run(self, replay):
        try:
            replay.run()
            is_whole = True
        except Enough:
            is_whole = False
        return self.result(replay, is_whole)

    def result(self, replay, is_whole):
        import model
        pages = [page for node in replay.world.nodes for page in node.heap.at.values()]
        if self.last_call is not None and self.position not in self.wanted:
            self.wanted[self.position] = self.sample(replay)
        kept = {**{sample.position: sample for sample in self.even}, **self.wanted}
        return Watched([kept[position] for position in sorted(kept)], dict(self.acts), sum(page.gains for page in pages),
                       sum(page.losses for page in pages), replay.moved, replay.ended, is_whole,
                       time.monotonic() - self.begun, self.peak, self.live_peak,
                       model.answer(replay, rows=True) if is_whole else None)

    def stood(self, replay, thread):
        pass

    def acted(self, replay, thread, call, act):
        self.acts[act + (thread.instruction,)] += 1
        self.last_call = call
        self.is_heap_moved |= act[0] == 'page heap'         # which alone changes what is resident
        position = replay.moved if self.plan.by_moves else replay.ended
        if position != self.position:
            self.position = position
            self.note(replay)
        if replay.moved % CHECKED == 0:
            self.progress.update(replay.ended - self.progress.n)
            self.is_over = time.monotonic() - self.begun > self.plan.seconds

    def note(self, replay):
        """A new moment has come: a pick has moved, or a call has ended."""
        if not self.plan.wanted:
            self.note_peaks(replay)
        if self.position in self.plan.wanted:
            self.wanted[self.position] = self.sample(replay)
        elif self.position % self.step == 0:
            self.even.append(self.sample(replay))
            self.thin()
        if self.is_over or self.position == self.plan.until:
            raise Enough

    def thin(self):
        """Where there are too many, half of them go."""
        while self.plan.number is not None and len(self.even) > self.plan.number:
            self.step *= 2
            self.even = [sample for sample in self.even if sample.position % self.step == 0]

    def note_peaks(self, replay):
        """Where no moment is wanted, those of the peaks are looked for."""
        if self.is_heap_moved:
            self.is_heap_moved = False
            resident = sum(node.heap.resident() for node in replay.world.nodes)
            self.peak = max(self.peak, (resident, self.position), key=lambda peak: (peak[0], -peak[1]))
        if replay.world.live > self.live_peak[0]:
            self.live_peak = replay.world.live, self.last_call.line

    def sample(self, replay):
        from model.holdings import holdings
        world = replay.world
        heaps = [node.heap for node in world.nodes]
        used, covered = (sum(measure(heap) for heap in heaps) for measure in (type(heaps[0]).used, type(heaps[0]).covered))
        rows = [(page.kind, page.used, len(page.runs), len(page.backed), page.longest, int(page.donated))
                for heap in heaps for page in heap.at.values()]
        return Sample(self.position, replay.ended, replay.moved, self.last_call.line, world.live, used,
                      sum(heap.resident() for heap in heaps), world.nones, covered / used if used else None,
                      len(world.blocks), rows, holdings(replay))
