"""CPUs with their slabs, and threads with the restartable sequences that they run there.

What threads do is told as generators. From here on a `yield` stands before each act, and names its part and itself:
what comes behind it, up to the next `yield` or the end, is that act and all that follows from it at once.
"""


class Cpu:
    """At most one thread runs at a CPU."""

    def __init__(self, heads, table):
        self.slab, self.percpu, self.table = heads['slab'], heads['percpu'], table
        self.running = None                         # the thread that runs here
        self.epoch = 0                              # rises where what was begun here must begin anew
        self.stopper = None                         # the thread that drains or resizes here
        self.fenced = False                         # whether it has sent back what was begun before
        self.slots = [{} for _ in table]            # for each class: the object in each slot,
        self.top = [0 for _ in table]               # how many of the slots count,
        self.cap = [0 for _ in table]               # and how many may

    def bytes(self):
        return sum(cap * row.size for cap, row in zip(self.cap, self.table))

    def unused(self, row):
        return self.cap[row.number] - self.top[row.number]

    def objects(self, row):
        """All objects of a class, the top one first."""
        slots = self.slots[row.number]
        return [slots[place] for place in reversed(range(self.top[row.number]))]

    def grow(self, row):
        """The class gets a batch more of capacity. What is short of bytes comes from one victim, or nothing changes."""
        more = min(row.batch, self.slab - self.cap[row.number])
        short = more * row.size - (self.percpu - self.bytes())
        if self.stopper is not None or more == 0:
            return
        if short > 0:
            victim = self.victim(row)
            if victim is None or -(-short // victim.size) > self.unused(victim):
                return
            self.cap[victim.number] -= -(-short // victim.size)
        self.cap[row.number] += more

    def victim(self, row):
        """The other class with most bytes of unused capacity, of several the least."""
        return min((other for other in self.table if other is not row), default=None,
                   key=lambda other: (-self.unused(other) * other.size, other.number))

    def take_all(self, row):
        objects = self.objects(row)
        self.top[row.number] = 0
        return objects

    def set_capacity(self, row, number):
        """What a resize answers. A refused one changes nothing."""
        total = self.bytes() + (number - self.cap[row.number]) * row.size
        if number > self.slab:
            return 'overstatic %d' % self.slab
        if total > self.percpu:
            return 'overlimit %d' % total
        self.cap[row.number] = number
        return 'ok'


class Registers:
    """What a sequence has noted since it began: nothing of it counts before Commit."""

    __slots__ = ('name', 'row', 'has_begun', 'top', 'wanted', 'copied')

    def __init__(self, name, row):
        self.name, self.row = name, row
        self.has_begun = False
        self.top = None             # what Header noted
        self.wanted = None          # how many objects Test found to take, or to add
        self.copied = []            # the objects that were loaded, or stored

    def instruction(self):
        """The instruction that comes next."""
        if not self.has_begun:
            return 'Begin'
        if self.top is None:
            return 'Header'
        if self.wanted is None:
            return 'Test'
        return 'Copy' if len(self.copied) < self.wanted else 'Commit'


class Thread:
    def __init__(self, number, cpus, calls):
        self.number, self.cpus, self.calls = number, cpus, calls
        self.cpu = cpus[number % len(cpus)]
        self.epoch = 0              # that of its CPU when it last was switched in or sent back
        self.ended = 0              # how many of its calls have ended
        self.program = None         # the generator of its call
        self.next_act = None        # the part and name of its next act
        self.waits_for = None       # the label that its next act asks for
        self.move = None            # of its call, where it is still to come
        self.executed = 0           # instructions in its call
        self.instruction = None     # what its last act was, where that was one of a sequence or a growth
        self.registers = None       # of its sequence, while it is in one,
        self.dropped = None         # and those that its last act dropped, if the sequence had begun
        self.hand = []              # objects that its call has,
        self.hand_row = None        # all of this class
        self.node = None            # where its call acts behind the front
        self.on_the_way = []        # spans that its call has: a new one before it joins, or freed ones

    def take_in_hand(self, row, objects):
        self.hand_row, self.hand = row, objects

    def leave(self):
        """The move of a `p` line: the thread is at another CPU then. If it ran, nobody runs at the old one."""
        self.instruction = 'Leave'
        if self.cpu.running is self:
            self.cpu.running = None
            self.cpu.epoch += 1
        self.cpu = self.cpus[self.move[1]]
        self.move = None

    def is_move_due(self):
        return self.move is not None and self.executed == self.move[0] - 1

    def upcoming(self):
        """What the next act is, where it is one of a sequence or a growth: by the first of the rules that applies."""
        if self.registers is None and (self.next_act is None or self.next_act[1] != 'Grow'):
            return None
        if self.registers is not None and self.is_move_due():
            return 'Leave'
        if self.cpu.running is not self:
            return 'In'
        if self.epoch != self.cpu.epoch:
            return 'Back'
        return self.registers.instruction() if self.registers is not None else 'Grow'

    def is_switched(self):
        """Whether this act makes the thread run at its CPU, or tells it that a fence came since."""
        if self.cpu.running is not self:
            self.instruction = 'In'
            self.cpu.running = self
            self.cpu.epoch += 1
        elif self.epoch == self.cpu.epoch:
            return False
        else:
            self.instruction = 'Back'
        self.epoch = self.cpu.epoch
        return True

    def grow(self, row):
        """Once the thread runs at its CPU. No move comes before it, and it is no instruction."""
        yield 'CPU', 'Grow'
        while self.is_switched():
            yield 'CPU', 'Grow'
        self.instruction = 'Grow'
        self.cpu.grow(row)

    def sequence(self, name, row, instructions):
        """One restartable sequence. It is begun anew where the thread left, was switched in, or was sent back."""
        noted = self.registers = Registers(name, row)
        steps = instructions(self.cpu, noted)
        act = 'CPU', name
        while True:
            yield act
            if self.move is not None and self.is_move_due():
                self.leave()
            elif not self.is_switched():
                self.executed += 1
                try:
                    self.instruction = next(steps)
                    continue
                except StopIteration as done:
                    reply, result = done.value
                    self.instruction, self.registers = LAST[reply], None
                    return reply, result
            self.dropped = noted if noted.has_begun else None
            noted = self.registers = Registers(name, row)
            steps = instructions(self.cpu, noted)

    # In the two below a `yield` stands behind each instruction but the last, and names that instruction.

    def pop(self, name, row, most):
        """Takes up to so many objects from the top down. Answers 'popped', 'empty' or 'stopped', and the objects."""
        def instructions(cpu, noted):
            noted.has_begun = True
            yield 'Begin'
            if cpu.stopper is not None:
                return 'stopped', []
            noted.top = top = cpu.top[row.number]
            yield 'Header'
            if top == 0:
                return 'empty', []
            noted.wanted = count = min(most, top)
            yield 'Test'
            for place in range(1, count + 1):
                noted.copied.append(cpu.slots[row.number][top - place])
                yield 'Copy'
            cpu.top[row.number] = top - count
            return 'popped', noted.copied
        return (yield from self.sequence(name, row, instructions))

    def push(self, name, row):
        """Adds the first objects of the hand, as many as may. Answers 'pushed', 'full' or 'stopped'."""
        def instructions(cpu, noted):
            noted.has_begun = True
            yield 'Begin'
            if cpu.stopper is not None:
                return 'stopped', None
            noted.top = top = cpu.top[row.number]
            yield 'Header'
            if top == cpu.cap[row.number]:
                return 'full', None
            noted.wanted = count = min(len(self.hand), cpu.cap[row.number] - top)
            yield 'Test'
            for place in range(count):
                cpu.slots[row.number][top + place] = self.hand[place]
                noted.copied.append(self.hand[place])
                yield 'Copy'
            cpu.top[row.number] = top + count
            del self.hand[:count]
            return 'pushed', None
        return (yield from self.sequence(name, row, instructions))[0]


LAST = {'stopped': 'Header, stopped', 'empty': 'Test, empty', 'full': 'Test, full', 'popped': 'Commit',
        'pushed': 'Commit'}


class SlabsOfCpus:
    """The front of slabs: a thread's objects come from and go to the slab of the CPU at which it is."""

    is_of_cpus = True

    def __init__(self, heads, table):
        pass

    def take(self, thread, row):
        """An object, or none. An empty slab grows first."""
        reply, objects = yield from thread.pop('Pop', row, 1)
        if reply == 'empty':
            yield from thread.grow(row)
        return objects

    def stock(self, thread, row):
        """The first ones of the hand stay in the slab."""
        yield from thread.push('Stock', row)

    def put(self, thread, row):
        """The one object in hand stays. Where the slab is full, a batch of it comes into the hand, too."""
        reply = yield from thread.push('Push', row)
        if reply == 'full':
            _, popped = yield from thread.pop('PopBatch', row, row.batch)
            thread.hand += popped
