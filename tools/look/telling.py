"""Tells a run of the model act by act, for a page: what each act was, and which parts were other after it."""
import collections

import model
from shared.ends import Stop

import standing

MOST_ACTS = 5000
# `lines` are those that the calls were answered up to the end of what is told, and `is_whole` is whether the run ended there.
Told = collections.namedtuple('Told', 'data lines text calls is_whole')


def told(table, trace, order, command, nodes, first):
    """What is told of a run from the first act of a call of trace line `first` or a later one on; all if it is None."""
    replay = Window(table, trace, order, command, nodes, first)
    if not replay.calls:
        raise Stop('the trace has no call')
    if (first or 1) > replay.calls[-1].line:
        raise Stop('no call is of trace line %d or a later one; the last is of line %d' % (first, replay.calls[-1].line))
    try:
        replay.run()
    except Enough:
        replay.is_cut = True
    status, text, notes = model.answer(replay, rows=True)
    if status:
        raise Stop(notes)
    return Told(replay.data(), replay.world.lines, text, len(replay.calls), not replay.is_cut)


class Enough(Exception):
    """As many acts are told as may be."""


class Window(model.Replay):
    """A run that tells of its acts from a line of the trace on. Each part is told as a value of its own, and only if it
    isn't what it was."""

    def __init__(self, table, trace, order, command, nodes, first):
        super().__init__(table, trace, order, command=command, nodes=nodes)
        self.first = first
        self.texts = trace.split('\n')
        self.acts, self.known, self.start = [], {}, None
        self.before = self.decided = 0
        self.is_cut = False
        if first is None:
            self.begin()

    def pick(self, thread):
        if self.start is None and thread.program is not None and thread.calls[thread.ended].line >= self.first:
            self.begin()
        if self.start is not None:
            self.note_label(thread)
        return super().pick(thread)

    def begin(self):
        """What stood before the first act that is told."""
        self.listener = self
        self.before, self.decided = self.moved, len(self.world.lines)
        self.known = standing.all_parts(self)
        self.start = dict(self.known)

    def note_label(self, thread):
        """What stood of a label at the start is told if a call names it."""
        if thread.program is None or thread.calls[thread.ended].word not in 'af':
            return
        for name, value in standing.label(self.world, thread.calls[thread.ended].numbers[0]).items():
            if value is not None and name not in self.known:
                self.known[name] = self.start[name] = value

    def changes(self, now):
        """The parts that are other than they were, by their names; None is told of one that is gone."""
        changes = {name: value for name, value in now.items() if self.known.get(name) != value}
        for name, value in changes.items():
            if value is None:
                del self.known[name]
            else:
                self.known[name] = value
        return changes

    def add(self, act):
        if len(self.acts) == MOST_ACTS:
            if self.first is None:
                raise Stop('the run has more than %d acts; --from LINE shows as many from that line on' % MOST_ACTS)
            raise Enough
        self.acts.append(act)

    def acted(self, replay, thread, call, act):
        part, name = act
        lines = self.world.lines[self.decided:]
        self.decided += len(lines)
        self.add({'thread': thread.number, 'part': part, 'name': name, 'instruction': thread.instruction,
                  'dropped': standing.registers(thread.dropped), 'line': call.line, 'call': self.text_of(call),
                  'label': call.numbers[0] if call.word in 'af' else None, 'number': self.moved, 'decided': lines,
                  'changes': self.changes(standing.parts_after(self, thread, call, part, self.known))})

    def stood(self, replay, thread):
        why = 'all its calls have ended' if thread.program is None else 'it waits for label %d' % thread.waits_for
        self.add({'thread': thread.number, 'stood': why, 'changes': {}, 'decided': []})

    def text_of(self, call):
        return self.texts[call.line - 1].rstrip('\r')

    def data(self):
        """What the page needs beside its own words."""
        world = self.world
        return {'acts': self.acts, 'start': self.start, 'table': [row.size for row in world.table], 'cpus': len(world.cpus),
                'threads': len(self.threads), 'domains': world.domains, 'nodes': len(world.nodes), 'heads': dict(self.heads),
                'before': self.before, 'calls': len(self.calls), 'ended': self.ended, 'is_cut': self.is_cut}
