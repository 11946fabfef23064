"""What stands at a moment of a run of the model, as values by the names of their parts, for a page that tells it."""
from model.heap import PAGE, PAGES

SHOWN = 48                      # objects of a list


def all_parts(replay):
    """All that stands, but for the labels, of which those are told that a call names."""
    world, now = replay.world, {}
    for number in range(len(world.cpus)):
        now.update(cpu_parts(world, number))
    now.update(cache_parts(replay))
    now.update(list_parts(world))
    for node in world.nodes:
        now.update(shard_parts(node))
        now.update(heap_parts(world, node))
    now.update(('thread %d' % thread.number, thread_of(thread, replay)) for thread in replay.threads)
    now['sum'] = sums(replay)
    return {name: value for name, value in now.items() if value is not None}


def parts_after(replay, thread, call, part, known):
    """What may be other after an act at this part than in `known`. None stands for a part that is gone."""
    world, now = replay.world, {}
    for number in touched_cpus(thread, call, known):
        now.update(cpu_parts(world, number))
    if part in ('own cache', 'another\'s cache'):
        now.update(cache_parts(replay))
    elif part == 'domain\'s cache':
        now.update(list_parts(world))
    for node in world.nodes:
        if part == 'shard':
            now.update(shard_parts(node, known))
        elif part == 'page heap':
            now.update(heap_parts(world, node, known))
    now.update(dict.fromkeys(gone(part, now, known)))
    if call.word in 'af':
        now.update(label(world, call.numbers[0]))
    now.update(('thread %d' % each.number, thread_of(each, replay)) for each in replay.threads)
    now['sum'] = sums(replay) if part == 'page heap' else sums(replay, *known['sum'][2:4])
    return now


# All parts of these kinds are told after an act at such a part, so that one that isn't told is gone.
TOLD_WHOLE = {'shard': ('transfer', 'span'), 'domain\'s cache': ('list',), 'page heap': ('hugepage',)}


def gone(part, now, known):
    kinds = TOLD_WHOLE.get(part, ())
    return [name for name in known if name.split(' ')[0] in kinds and name not in now] if kinds else []


def touched_cpus(thread, call, known):
    """The CPU at which the thread is, the one at which it was, and the one that its call stops."""
    touched = {thread.cpus.index(thread.cpu), known['thread %d' % thread.number]['cpu']}
    return sorted(touched | ({call.numbers[0]} if call.word in 'dz' else set()))


def sums(replay, used=None, resident=None):
    """Blocks and bytes that are live, used and backed pages, and calls that ended."""
    world = replay.world
    heaps = [node.heap for node in world.nodes]
    used = sum(heap.used() for heap in heaps) if used is None else used
    resident = sum(heap.resident() for heap in heaps) if resident is None else resident
    return [len(world.blocks), world.live, used, resident, replay.ended]


def listed(objects, offset=0):
    """How many there are, and the first of them."""
    return [len(objects), [address + offset for address in objects[:SHOWN]]]


def number_of(thread):
    return None if thread is None else thread.number


# Threads.

def thread_of(thread, replay):
    world = replay.world
    node = thread.node or world.home(thread)
    call = thread.calls[thread.ended] if thread.program is not None else None
    return {'cpu': world.cpus.index(thread.cpu), 'epoch': thread.epoch, 'hand': listed(thread.hand, node.offset),
            'hand_class': thread.hand_row.number if thread.hand_row and thread.hand else None,
            'spans': [[span.run[0] + node.offset // PAGE, span.run[1]] for span in thread.on_the_way],
            'move': thread.move, 'executed': thread.executed, 'ended': thread.ended, 'next': thread.next_act,
            'comes': thread.upcoming(), 'registers': registers(thread.registers), 'waits_for': thread.waits_for,
            'node': world.home(thread).number, 'call': [call.line, replay.text_of(call)] if call else None}


def registers(noted):
    """What a sequence noted, and which instruction comes if it isn't begun anew."""
    if noted is None:
        return None
    return {'name': noted.name, 'class': noted.row.number, 'begun': noted.has_begun, 'top': noted.top, 'wanted': noted.wanted,
            'copied': listed(noted.copied), 'before': noted.instruction()}


# In front.

def cpu_parts(world, number):
    """A CPU and its slabs, if CPUs have slabs."""
    if not world.front.is_of_cpus:
        return {}
    cpu = world.cpus[number]
    now = {'cpu %d' % number: {'running': number_of(cpu.running), 'epoch': cpu.epoch, 'stopper': number_of(cpu.stopper),
                               'fenced': cpu.fenced, 'bytes': cpu.bytes()}}
    now.update(('slab %d %d' % (number, row.number), slab_of(cpu, row)) for row in world.table)
    return now


def slab_of(cpu, row):
    """A class's objects from the bottom up, and what stands in the places above the top, which doesn't count."""
    top, capacity, slots = cpu.top[row.number], cpu.cap[row.number], cpu.slots[row.number]
    if not top and not capacity:
        return None
    return {'top': top, 'capacity': capacity, 'objects': [slots[place] for place in range(min(top, SHOWN))],
            'scratch': [slots.get(place) for place in range(top, min(capacity, SHOWN))]}


def cache_parts(replay):
    """The caches of threads: each with its limit, its bytes, and the objects of each class."""
    caches = getattr(replay.world.front, 'caches', [])
    return {'own %d' % number: {'limit': cache.limit, 'bytes': cache.bytes(), 'lists': [
        [row, *listed(objects)] for row, objects in enumerate(cache.objects) if objects]} for number, cache in enumerate(caches)}


# After that.

def list_parts(world):
    """The caches of domains."""
    return {'list %d %d' % place: listed(objects) for place, objects in world.caches.items() if objects}


def shard_parts(node, known=None):
    """Transfer lists, and each span. One whose counts are as `known` is as it was, as an act takes or gives."""
    now, known = {}, known or {}
    for number, shard in enumerate(node.shards):
        if shard.transfer:
            now['transfer %d %d' % (node.number, number)] = listed(shard.transfer, node.offset)
        for span in shard.spans.values():
            first = span.run[0] + node.offset // PAGE
            name = 'span %d %d %d' % (node.number, number, first)
            counts = [first, span.run[1], len(span.objects), len(span.free)]
            was = known.get(name)
            now[name] = was if was and was[:4] == counts else [*counts, listed(span.free, node.offset)[1]]
    return now


def heap_parts(world, node, known=None):
    """The hugepages that aren't free, or are backed. One whose counts are as `known` is as it was."""
    now, before, known = {}, node.number * world.huge, known or {}
    for page in node.heap.at.values():
        name = 'hugepage %d' % (before + page.number)
        counts = [page.kind, page.used, len(page.runs), len(page.backed), page.longest, int(page.donated)]
        if page.kind != 'free' or page.backed:
            was = known.get(name)
            now[name] = was if was and was[:6] == counts else [*counts, used_ranges(page)]
    return now


def used_ranges(page):
    """The used ranges (first of its pages, pages) of a hugepage."""
    first = page.number * PAGES
    return [(max(start, first) - first, min(start + pages, first + PAGES) - max(start, first))
            for start, pages in page.runs]


def label(world, number):
    """The published name and the live block of a label, as far as they are there."""
    block, name = world.blocks.get(number), 'name %d' % number
    return {'block %d' % number: block and [block.length, block.asked],
            name: [world.names[number], number in world.taken] if number in world.names else None}
