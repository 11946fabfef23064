"""The data of the page of a run over time, out of the program's points and what the model was seen to do."""
from shared.prefixes import Point
from shared.program import PAGE

KINDS = {'free': 0, 'filler': 1, 'run': 2, 'region': 3}
SHOWN = 1500                    # spans of calls of which the least and the most live bytes are drawn
ROW = (0, 0, 0, 0, 256, 0)      # a free hugepage without backing


def point_of(sample):
    """A point of the model's."""
    frag = (sample.resident * PAGE - sample.live) * 1000 // (sample.resident * PAGE) if sample.resident else 0
    return Point(sample.position, sample.line, sample.blocks, sample.live, sample.used, sample.resident, frag,
                 sample.nones, sample.covered, sample.rows)


def told(points, x_of):
    """Points for the page, field by field and without their hugepages."""
    fields = {name: [getattr(point, name) for point in points]
              for name in ('position', 'line', 'blocks', 'live', 'used', 'resident', 'frag', 'nones', 'covered')}
    return dict(fields, x=[x_of(point.position, point.line) for point in points])


def changes(points):
    """For each point the hugepages that aren't as they were at the one before: their places and each of their fields, as
    columns, which packs small."""
    before, told_changes = [ROW] * (len(points[0].rows) if points else 0), []
    for point in points:
        rows = [(KINDS[kind], *rest) for kind, *rest in point.rows]
        changed = [(place, *row) for place, (row, old) in enumerate(zip(rows, before)) if row != old]
        told_changes.append([list(column) for column in zip(*changed)])
        before = rows
    return told_changes


def extremes(xs, ys, wanted=()):
    """Each value of a long series, or those at the wanted places and the least and the most of each of many spans of it."""
    if len(ys) <= 2 * SHOWN:
        return list(xs), list(ys)
    step = -(-len(ys) // SHOWN)
    places = set(wanted)
    for first in range(0, len(ys), step):
        span = range(first, min(first + step, len(ys)))
        places |= {min(span, key=ys.__getitem__), max(span, key=ys.__getitem__)}
    places = sorted(places | {0, len(ys) - 1})
    return [xs[place] for place in places], [ys[place] for place in places]


def held_of(sample, x_of):
    """What held the memory at a moment, for the page: classes that have nothing are left out."""
    held = sample.held
    classes = [{'number': number, 'blocks': held.blocks[number], 'parts': parts}
               for number, parts in enumerate(held.classes) if any(parts)]
    if any(held.large):
        classes.append({'number': None, 'blocks': held.blocks[-1], 'parts': held.large})
    fronts = [[(number, held_bytes) for number, held_bytes in enumerate(front) if held_bytes]
              for front in held.caches or held.slabs]
    return {'position': sample.position, 'line': sample.line, 'x': x_of(sample.position, sample.line),
            'resident': sample.resident, 'unused': held.unused, 'classes': classes, 'fronts': fronts}


def acts_of(watched):
    """Acts by kind, the commonest first: (name, count)."""
    kinds = {}
    for (part, name, _), count in watched.acts.items():
        kinds['%s (%s)' % (name, part)] = kinds.get('%s (%s)' % (name, part), 0) + count
    return sorted(kinds.items(), key=lambda each: (-each[1], each[0]))


def counts_of(watched):
    """What a run cost, as (what, how often)."""
    acts = watched.acts
    count = acts.get

    def ended(names, instructions):
        return sum(count(('CPU', name, instruction), 0) for name in names for instruction in instructions)

    def of_caches(name):
        return count(('own cache', name, None), 0)
    every, taking, adding = ('Pop', 'Stock', 'Push', 'PopBatch'), ('Pop',), ('Push',)
    shed = of_caches('Trim')
    return [
        ('acts', sum(acts.values())),
        ('pops that found an object', ended(taking, ['Commit'])),
        ('pops that missed', ended(taking, ['Test, empty', 'Header, stopped'])),
        ('pushes that found room', ended(adding, ['Commit'])),
        ('pushes that missed', ended(adding, ['Test, full', 'Header, stopped'])),
        ('sequences begun anew: the thread was switched in', ended(every, ['In'])),
        ('sequences begun anew: a fence came', ended(every, ['Back'])),
        ('sequences begun anew: the thread was moved', ended(every, ['Leave'])),
        ('pops at threads\' caches', of_caches('Pop')),
        ('frees into threads\' caches', of_caches('Add')),
        ('limits of caches that took bytes of another\'s', of_caches('Raise')),
        ('batches that full caches shed', shed),
        ('fetches from a shard', count(('shard', 'Fetch', None), 0)),
        ('gives to a shard', count(('shard', 'Give', None), 0)),
        ('new spans', count(('page map', 'SetSpan', None), 0)),
        ('spans given back', count(('page heap', 'FreeSpan', None), 0)),
        ('large blocks placed', count(('page map', 'Set', None), 0)),
        ('hugepages backed', watched.gains),
        ('hugepages unbacked', watched.losses)]
