"""All parts, the calls as acts of threads over them, and runs in any order."""
import collections

from .caches import CachesOfThreads, NoCaches
from .heap import PAGE, PAGES, Heap
from .reading import read_order, read_trace
from .refusal import refused_line
from .slabs import Cpu, SlabsOfCpus, Thread
from .spans import Shard, Span, put_whole, take_last
from .tables import read_table

Block = collections.namedtuple('Block', 'address length asked row')    # row is its class, or None of a large one

# What serves small objects first, by command; in the others slabs of CPUs do.
FRONTS = {'perthread': CachesOfThreads, 'numa': NoCaches}


class Node:
    """The memory of a node: its own heap, map and shards, over addresses that are less by its offset."""

    def __init__(self, number, table, heads):
        self.number = number
        self.shards = [Shard(heads['transfer']) for _ in table]
        self.heap = Heap(heads)
        self.map = {}           # first page of a run: the run, and its class, or None
        self.offset = number * heads['huge'] * PAGES * PAGE

    def run_with(self, page):
        """The run that holds a page, and its class. An address of a large block is on its first page; spans have at most 255."""
        return next(self.map[page - back] for back in range(PAGES) if page - back in self.map)


class World:
    def __init__(self, table, heads, command, nodes):
        self.table, self.transfer = table, heads['transfer']
        self.cpus = [Cpu(heads, table) for _ in range(heads['cpus'])]
        self.front = FRONTS.get(command, SlabsOfCpus)(heads, table)
        self.domains = heads['domains'] if self.front.is_of_cpus else 0
        self.huge = heads['huge']
        self.nodes = [Node(number, table, heads) for number in range(nodes)]
        self.heap, self.shards = self.nodes[0].heap, self.nodes[0].shards       # where there is one node
        self.names = {}         # label: the address that was published, or None for null
        self.taken = set()      # the labels of which a free has taken that
        self.caches = {}        # (domain, class): its list
        self.lines = []         # of the decided calls, in the order of their deciding acts,
        self.decided = []       # and these calls
        self.blocks = {}        # label: the block, of each that was allocated and not freed
        self.live_at = set()    # their addresses
        self.live = 0           # their bytes
        self.nones = 0          # allocations that got nothing

    def decide(self, word, thread, *answer):
        self.lines.append(' '.join([word, str(thread.number)] + [str(each) for each in answer]))
        self.decided.append(thread.calls[thread.ended])

    def home(self, thread):
        """The node at which a thread allocates and releases, for good."""
        return self.nodes[thread.number % len(self.cpus) % len(self.nodes)]

    def node_with(self, address):
        """The node in whose range an address is. The arenas of nodes follow each other."""
        return self.nodes[(address // (PAGES * PAGE) - 1) // self.huge]

    def decide_block(self, thread, label, block):
        """An allocation is answered a block, or None."""
        if block is None:
            self.nones += 1
            self.decide('a', thread, label, 'none')
        else:
            self.blocks[label] = block
            self.live_at.add(block.address)
            self.live += block.length
            self.decide('a', thread, label, block.address, block.length)

    def decide_free(self, thread, label, address):
        self.live -= self.blocks.pop(label).length
        self.live_at.remove(address)
        self.decide('f', thread, label, address)

    def cache_of(self, thread, row):
        """The list of the class in the domain of the CPU at which the thread is."""
        return self.caches.setdefault((self.cpus.index(thread.cpu) % self.domains, row.number), [])

    # Runs of pages.

    def set_map(self, name, thread, run, row):
        yield 'page map', name
        thread.node.map[run[0]] = run, row

    def clear_map(self, name, thread, run):
        yield 'page map', name
        del thread.node.map[run[0]]

    def free_spans(self, thread):
        """Those that left their shards: each leaves the map, and then it is freed."""
        while thread.on_the_way:
            run = thread.on_the_way[0].run
            yield from self.clear_map('ClearSpan', thread, run)
            yield 'page heap', 'FreeSpan'
            thread.node.heap.free(run)
            del thread.on_the_way[0]

    # Objects behind the front.

    def hand_in(self, thread, row):
        """The hand goes to the domain's cache, if there are domains and all fits; else to the shard."""
        if self.domains:
            yield "domain's cache", 'Put'
            if put_whole(thread.hand, self.cache_of(thread, row), self.transfer):
                thread.hand = []
                return
        yield 'shard', 'Give'
        thread.on_the_way = thread.node.shards[row.number].give(thread.hand)
        thread.hand = []

    def refill(self, thread, row):
        """A batch from the domain's cache, the shard, or a new span. Nothing, where the heap has no run for it."""
        shard = thread.node.shards[row.number]
        if self.domains:
            yield "domain's cache", 'Take'
            objects = take_last(self.cache_of(thread, row), row.batch)
            if objects:
                return objects
        yield 'shard', 'Fetch'
        objects = shard.fetch(row.batch)
        if objects:
            return objects
        yield 'page heap', 'NewSpan'
        run = thread.node.heap.new(row.pages)
        if run is None:
            return []
        span = Span(run, row)
        thread.on_the_way = [span]
        yield from self.set_map('SetSpan', thread, run, row)
        yield 'shard', 'AddFetch'
        thread.on_the_way = []
        return shard.add_fetch(span, row.batch)

    # Calls.

    def allocate(self, thread, label, size):
        """By the first class that holds the size, or above the last one in whole pages."""
        row = next((row for row in self.table if row.size >= size), None)
        if row is None:
            return self.allocate_large(thread, label, size)
        return self.allocate_object(thread, label, row, size)

    def allocate_object(self, thread, label, row, size):
        objects = yield from self.front.take(thread, row)
        if not objects:
            objects = yield from self.refill(thread, row)
        address = objects[0] + thread.node.offset if objects else None
        thread.take_in_hand(row, objects[1:])
        self.decide_block(thread, label, Block(address, row.size, size, row) if objects else None)
        if thread.hand:
            yield from self.front.stock(thread, row)
            if thread.hand:
                yield from self.hand_in(thread, row)
                yield from self.free_spans(thread)
        yield 'names', 'Publish'
        self.names[label] = address

    def allocate_large(self, thread, label, size):
        yield 'page heap', 'New'
        run = thread.node.heap.new(-(-size // PAGE))
        address = run[0] * PAGE + thread.node.offset if run else None
        self.decide_block(thread, label, Block(address, run[1] * PAGE, size, None) if run else None)
        if run:
            yield from self.set_map('Set', thread, run, None)
        yield 'names', 'Publish'
        self.names[label] = address

    def free(self, thread, label):
        thread.waits_for = label
        yield 'names', 'Take'
        thread.waits_for = None
        address = self.names[label]
        self.taken.add(label)
        if address is None:
            self.decide('f', thread, label, 'none')
            return
        thread.node = self.node_with(address)
        yield 'page map', 'Lookup'
        run, row = thread.node.run_with((address - thread.node.offset) // PAGE)
        if row is not None:
            yield from self.free_object(thread, label, address, row)
        else:
            yield from self.clear_map('Clear', thread, run)
            yield 'page heap', 'GiveBack'
            thread.node.heap.free(run)
            self.decide_free(thread, label, address)

    def free_object(self, thread, label, address, row):
        """To the front. What is in hand behind it goes further back."""
        thread.take_in_hand(row, [address - thread.node.offset])
        yield from self.front.put(thread, row)
        if thread.hand:
            yield from self.hand_in(thread, row)
        self.decide_free(thread, label, address)
        yield from self.free_spans(thread)

    def release(self, thread, number):
        yield 'page heap', 'Unback'
        self.decide('r', thread, thread.node.heap.release(number))

    def stop(self, cpu, thread):
        """Stop, and Fence where nobody else had stopped the CPU. Answers who had."""
        yield 'CPU', 'Stop'
        if cpu.stopper is not None:
            return cpu.stopper
        cpu.stopper = thread
        yield 'CPU', 'Fence'
        cpu.epoch += 1
        cpu.fenced = True
        return None

    def start(self, cpu):
        yield 'CPU', 'Start'
        cpu.stopper = None
        cpu.fenced = False

    def drain(self, thread, place):
        cpu = self.cpus[place]
        other = yield from self.stop(cpu, thread)
        if other:
            self.decide('d', thread, place, 'busy', other.number)
            return
        total = 0
        for row in self.table:
            yield 'CPU', 'Take'
            thread.take_in_hand(row, cpu.take_all(row))
            total += len(thread.hand)
            if thread.hand:
                yield from self.hand_in(thread, row)
                yield from self.free_spans(thread)
        yield from self.start(cpu)
        self.decide('d', thread, place, 'ok', total)

    def resize(self, thread, place, number, capacity):
        cpu, row = self.cpus[place], self.table[number]
        other = yield from self.stop(cpu, thread)
        if other:
            self.decide('z', thread, place, number, capacity, 'busy', other.number)
            return
        yield 'CPU', 'Take'
        thread.take_in_hand(row, cpu.take_all(row))
        yield 'CPU', 'SetCap'
        self.decide('z', thread, place, number, capacity, cpu.set_capacity(row, capacity))
        yield from self.start(cpu)
        if thread.hand:
            yield from self.hand_in(thread, row)
            yield from self.free_spans(thread)

    def program(self, thread, call):
        """The acts of a call. A move that is still to come at its end is one more."""
        thread.node = self.home(thread)
        programs = {'a': self.allocate, 'f': self.free, 'r': self.release, 'd': self.drain, 'z': self.resize}
        yield from programs[call.word](thread, *call.numbers)
        if thread.move is not None:
            yield 'CPU', 'Leave'
            thread.leave()


def refuse_what_is_not_here(calls, command):
    """No drain and no resize, if no CPU has a slab."""
    for call in calls:
        if command in FRONTS and call.word in 'dz':
            raise refused_line(call.line, 'NotHere')


class Full(Exception):
    """A pick would move, and as many have moved as may."""


class Listener:
    """What is told of a run, act by act. An act is its part and its name."""

    def acted(self, replay, thread, call, act):
        """Behind an act of a call. Where it was one of a sequence or a growth, `thread.instruction` says which, and
        `thread.dropped` what it noted in vain, if it begins anew."""

    def stood(self, replay, thread):
        """A pick of an order file moved nothing: the thread waits, or its calls have ended."""


class Replay:
    """A run over the texts of table, trace and order."""

    def __init__(self, table, trace, order='', listener=None, command='serial', nodes=1):
        classes = read_table(table)
        self.heads, self.calls = read_trace(trace, len(classes))
        refuse_what_is_not_here(self.calls, command)
        self.order = order
        self.world = World(classes, self.heads, command, nodes)
        scripts = [[] for _ in range(self.heads['threads'])]
        for call in self.calls:
            scripts[call.thread].append(call)
        self.threads = [Thread(number, self.world.cpus, script) for number, script in enumerate(scripts)]
        self.events, self.moved, self.ended, self.is_full = self.heads['events'], 0, 0, False
        self.listener = listener
        for thread in self.threads:
            self.begin_call(thread)

    def run(self):
        """The picks of the order, and then the rest. Answers this very run."""
        picks = read_order(self.order, len(self.threads))
        try:
            for number, count in picks:
                self.pick_often(self.threads[number], count)
            self.complete()
        except Full:
            self.is_full = True
        return self

    def pick_often(self, thread, count):
        """So many picks. If one changes nothing, those behind it don't either, and a listener alone is told of them."""
        for _ in range(count):
            if not self.pick(thread) and not self.listener:
                break

    def begin_call(self, thread):
        """The thread stands before the first act of its next call, if there is one."""
        thread.program = thread.next_act = None
        if thread.ended < len(thread.calls):
            call = thread.calls[thread.ended]
            thread.move, thread.executed = call.move if self.world.front.is_of_cpus else None, 0
            thread.program = self.world.program(thread, call)
            thread.next_act = next(thread.program)

    def waits(self, thread):
        """For a label that isn't published, if its next act asks for one."""
        return thread.waits_for is not None and thread.waits_for not in self.world.names

    def pick(self, thread):
        """The thread's next act, and whether it moved. Nothing happens if its calls have ended, or it waits."""
        if thread.program is None or (thread.waits_for is not None and self.waits(thread)):
            if self.listener:
                self.listener.stood(self, thread)
            return False
        if self.moved == self.events:
            raise Full
        self.moved += 1
        call, act = thread.calls[thread.ended], thread.next_act
        thread.instruction = thread.dropped = None
        try:
            thread.next_act = next(thread.program)
        except StopIteration:
            thread.ended += 1
            self.ended += 1
            self.begin_call(thread)
        if self.listener:
            self.listener.acted(self, thread, call, act)
        return True

    def complete(self):
        """The thread of the earliest call that hasn't ended is picked, again and again."""
        due = collections.Counter()
        for call in self.calls:
            due[call.thread] += 1
            thread, ended = self.threads[call.thread], due[call.thread]
            while thread.ended < ended:
                self.pick(thread)
