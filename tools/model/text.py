"""What is printed of a run."""
from .heap import PAGE
from .profile import profile


def fragmentation(resident, live):
    """How much of so many backed pages no live byte has, in thousandths."""
    return (resident * PAGE - live) * 1000 // (resident * PAGE) if resident else 0


def summary(replay):
    world = replay.world
    used = sum(node.heap.used() for node in world.nodes)
    resident = sum(node.heap.resident() for node in world.nodes)
    return ['calls %d' % len(world.lines), 'live %d %d' % (len(world.blocks), world.live), 'used %d' % used,
            'resident %d' % resident, 'frag %d' % fragmentation(resident, world.live)]


def hugepages(replay):
    """A line for each, numbered on from node to node."""
    world = replay.world
    return [page.row(node.number * world.huge) for node in world.nodes for page in node.heap.at.values()]


def answer(replay, rows, sample=None):
    """The status, the text and the notes of a run that has ended, with a profile where it has a step of bytes."""
    if replay.is_full:
        return 9, '', 'tcreplay: events limit %d\n' % replay.events
    lines = replay.world.lines + summary(replay)
    if rows:
        lines += hugepages(replay)
    if sample:
        lines += profile(replay.world.decided, replay.world.lines, sample)
    return 0, ''.join(line + '\n' for line in lines), ''
