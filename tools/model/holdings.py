"""What holds the memory of a run, at any moment of it."""
import collections

from .heap import PAGE

# Of a class, in bytes: blocks that are live, by what was asked for and what rounding added; objects that wait in
# slabs of CPUs, caches of threads, domains' caches and transfer lists; free ones in spans; the ends of spans that no
# object has; and what calls have under way, as hands of objects and spans that haven't joined or have left.
OF_CLASS = ('asked', 'rounding', 'slabs', 'caches', 'domains', 'transfer', 'spans', 'ends', 'under_way')
Holding = collections.namedtuple('Holding', OF_CLASS)
Holdings = collections.namedtuple('Holdings', 'classes large unused blocks slabs caches')


def holdings(replay):
    """`classes` has a Holding for each class, `large` is that of large blocks. `unused` has the bytes that are backed
    and that no run has, by kind of hugepage; `blocks` how many live ones each class has, large ones at the end; `slabs`
    for each CPU the bytes of each class, and `caches` those for each thread that has a cache. All memory nodes count."""
    world = replay.world
    count, length, asked = live_blocks(world)
    moving = under_way(replay)
    caches = [[len(cache.objects[row.number]) * row.size for row in world.table]
              for cache in getattr(world.front, 'caches', [])]
    classes = [of_class(world, row, length[row.number], asked[row.number], sum(cache[row.number] for cache in caches),
                        moving[row.number]) for row in world.table]
    large = Holding(asked[None], length[None] - asked[None], *[0] * 7)
    blocks = [count[row.number] for row in world.table] + [count[None]]
    slabs = [[cpu.top[row.number] * row.size for row in world.table] for cpu in world.cpus]
    return Holdings(classes, large, unused(world.nodes), blocks, slabs, caches)


def live_blocks(world):
    """The number of live blocks of each class, their bytes, and the bytes that were asked for."""
    count, length, asked = collections.Counter(), collections.Counter(), collections.Counter()
    for block in world.blocks.values():
        number = block.row.number if block.row else None
        count[number] += 1
        length[number] += block.length
        asked[number] += block.asked
    return count, length, asked


def of_class(world, row, length, asked, cached, moving):
    size, shards = row.size, [node.shards[row.number] for node in world.nodes]
    spans = [span for shard in shards for span in shard.spans.values()]
    return Holding(
        asked, length - asked,
        size * sum([cpu.top[row.number] for cpu in world.cpus]), cached,
        size * sum([len(objects) for (_, number), objects in world.caches.items() if number == row.number]),
        size * sum([len(shard.transfer) for shard in shards]),
        size * sum([len(span.free) for span in spans]),
        sum([span.run[1] * PAGE - size * len(span.objects) for span in spans]),
        moving)


def under_way(replay):
    """The bytes of each class that threads' calls have, but for blocks that are live."""
    moving = collections.Counter()
    for thread in replay.threads:
        for span in thread.on_the_way:
            moving[span.row.number] += span.run[1] * PAGE
        if thread.hand:
            kept = sum(address + thread.node.offset not in replay.world.live_at for address in thread.hand)
            moving[thread.hand_row.number] += thread.hand_row.size * kept
    return moving


def unused(nodes):
    pages = collections.Counter()
    for hugepage in (hugepage for node in nodes for hugepage in node.heap.at.values()):
        pages[hugepage.kind] += len(hugepage.backed) - hugepage.used
    return {kind: pages[kind] * PAGE for kind in ('filler', 'region', 'free')}


def total(held):
    """The bytes of all classes and large blocks: those of all used pages."""
    return sum(map(sum, held.classes)) + sum(held.large)
