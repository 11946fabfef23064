"""What the page of a run over time says in words: each number with its unit, whose it is, and of which part of the trace."""
import math
import os

from model.holdings import OF_CLASS
from model.reading import read_table
from shared.program import PAGE

import asked

UNITS = ((1 << 30, 'GiB'), (1 << 20, 'MiB'), (1 << 10, 'KiB'))
UNUSED = ('filler', 'region', 'free')
PARTS = {'asked': 'live as asked for', 'rounding': 'live by rounding', 'slabs': 'free in slabs of CPUs',
         'caches': 'free in caches of threads', 'domains': 'free in domains\' caches', 'transfer': 'free in transfer lists',
         'spans': 'free in spans', 'ends': 'in ends of spans', 'under_way': 'in calls under way',
         'filler': 'backed and unused in filler', 'region': 'backed and unused in regions',
         'free': 'backed in free hugepages'}
TOLD = 4                        # parts of the memory that the head of the page names
SPARE = 1.3                     # what is added to the seconds that would do


def size(number):
    for unit, name in UNITS:
        if abs(number) >= unit:
            return '%.2f %s' % (number / unit, name)
    return '%d B' % number


def classes(look):
    return read_table(look.table)


def whose(look):
    return 'model' if look.is_by_model else 'program'


def where(look, point):
    place = 'pick {:,}, trace line {:,}' if look.by_moves else 'call {:,}, trace line {:,}'
    return place.format(point.position, point.line)


def peak_of(look):
    """Of the points with most resident pages the first."""
    return max(look.points, key=lambda point: (point.resident, -point.position))


def is_cut(look):
    return look.watched is not None and not look.watched.is_whole


def extent(look):
    """How far the model came, as calls of the trace."""
    ended, calls = look.watched.calls, look.trace.calls()
    return 'all {:,} calls'.format(calls) if look.watched.is_whole else 'calls 1 to {:,} of {:,}'.format(ended, calls)


def seconds_that_do(look):
    """By how far it came, with something to spare, as a round number."""
    watched = look.watched
    wanted = SPARE * watched.seconds * look.trace.calls() / max(watched.calls, 1) * (2 if look.is_by_model else 1)
    digits = 10 ** max(0, math.floor(math.log10(max(wanted, 1))) - 1)
    return math.ceil(wanted / digits) * digits


def measures(point):
    return point.live, point.used, point.resident, point.nones


def disagreement(look):
    """Where the model and the program don't say the same, or None."""
    if look.watched is None or look.built is None:
        return None
    if look.is_by_model:
        told = look.watched.text
        return 'The model\'s text of the run isn\'t the program\'s.' if told and told[1].encode('latin-1') != look.text else None
    known = {point.position: point for point in look.points}
    for sample in look.watched.samples:
        if measures(sample) != measures(known[sample.position]):
            return 'The model and the program differ at %s.' % where(look, sample)
    return None


def alarms(look):
    found = []
    nones = look.points[-1].nones
    if nones:
        first = ''
        if look.answers is not None:
            first = ', first at trace line {:,}'.format(look.own_line(look.trace.lines[look.answers.first_none]))
        found.append('{:,} request{} got nothing{}: the heap had no place for them.'.format(
            nones, 's' if nones > 1 else '', first))
    if asked.is_one_of_many(look.run):
        found.append('This is one run of many: running threads decided its order, and the next run may end otherwise. '
                     'So its end is shown, and nothing of its course.')
    if is_cut(look):
        found.append('The model came to call {:,} of {:,} in {:,} s: what it says ends there. --seconds {} would do.'.format(
            look.watched.calls, look.trace.calls(), round(look.watched.seconds), seconds_that_do(look)))
    differs = disagreement(look)
    return found + ['%s One of the two is wrong: please tell the project.' % differs] if differs else found


def greatest_of(look):
    """Of what the peak is the greatest."""
    if asked.is_one_of_many(look.run):
        return 'the end of this one run'
    if look.is_by_model:
        return 'the greatest at any act' if look.by_moves else 'the greatest after any call'
    return 'the greatest of {:,} prefixes'.format(len(look.points))


def first_line(look):
    peak = peak_of(look)
    resident, used = size(peak.resident * PAGE), size(peak.used * PAGE)
    return 'Resident memory is {} at {}, {} ({}). Then {} are live, {} are used, and fragmentation is {:.1f} %.'.format(
        resident, where(look, peak), greatest_of(look), whose(look), size(peak.live), used, peak.frag / 10)


def held_at_peak(look):
    """The moment of the model's at which most memory is resident."""
    samples = look.watched.samples if look.watched else []
    return max(samples, key=lambda sample: (sample.resident, -sample.position), default=None)


def parts_of(sample):
    """The bytes of each part of the resident memory at a moment."""
    held = sample.held
    parts = {name: sum(row[place] for row in held.classes) + held.large[place] for place, name in enumerate(OF_CLASS)}
    return {**parts, **held.unused}


def most_of(look, sample, name):
    """The class that has most of a part, if one has the half of it."""
    if name in UNUSED:
        return ''
    place, held = OF_CLASS.index(name), sample.held
    number = max(range(len(held.classes)), key=lambda number: held.classes[number][place])
    if 2 * held.classes[number][place] <= parts_of(sample)[name]:
        return ''
    return ', most of it of class {} ({:,} B)'.format(number, classes(look)[number].size)


def why_line(look):
    """What holds the memory where most is resident."""
    sample = held_at_peak(look)
    if sample is None:
        return ''
    parts = sorted(parts_of(sample).items(), key=lambda part: -part[1])
    whole = sample.resident * PAGE
    told = ['{} ({:.1f} %) {}{}'.format(size(held), 100 * held / whole, PARTS[name], most_of(look, sample, name))
            for name, held in parts[:TOLD] if held]
    return 'What holds the {} at {} (model, {}): {}.'.format(
        size(whole), where(look, sample), 'the greatest of its moments' if is_cut(look) else 'its peak', '; '.join(told))


def cards(look):
    """Each is a number with its unit, what it is, and whose it is and of which part of the trace."""
    peak, last, by = peak_of(look), look.points[-1], whose(look)
    at_end = '%s, after %s' % (by, extent(look) if is_cut(look) and look.is_by_model else 'all {:,} calls'.format(look.trace.calls()))
    told = [(size(peak.resident * PAGE), 'greatest resident', '%s, %s' % (by, greatest_of(look)))]
    if asked.is_one_of_many(look.run):
        told = [(size(last.live), 'live at the end', at_end)]
    if look.most_live:
        told.append((size(look.most_live[0]), 'most live', '{}, trace line {:,}, of all calls'.format(by, look.most_live[1])))
    told += [
        (size(last.resident * PAGE), 'resident at the end', at_end),
        ('%.1f %%' % (last.frag / 10), 'fragmentation at the end', at_end),
        ('{:,}'.format(last.nones), 'requests that got nothing', at_end)]
    if look.watched and look.watched.calls:
        told.append(('%.1f acts' % (look.watched.moved / look.watched.calls), 'a call', 'model, ' + extent(look)))
    return told


BY_PROGRAM = """Used and resident pages, fragmentation, coverage and the map of hugepages are the built program's own
summaries of {:,} prefixes of the trace, each run as {}. Live bytes are exact at every call, from its one text of the whole
trace."""
BY_MODEL = 'What holds the memory and what it cost are the model\'s (tools/model), which shares nothing with the program: of {}.'
AGREES = ' At each of its {:,} moments it has the program\'s live bytes, used and resident pages.'
ALL_BY_MODEL = """The built program ran the whole trace once, as {}. The course, the hugepages, what holds the memory and what
it cost are the model's (tools/model), act by act, of {}; {}"""
SAME_TEXT = 'the text of its run is the program\'s, byte for byte.'
NOT_COMPARED = 'it didn\'t come to the end, so its text wasn\'t compared.'
NOT_BUILT = """The program isn't built here (./tcreplay builds it), so all numbers are the model's (tools/model), of {}, as {}.
The model follows the same rules, but nobody has proved that it does."""
ONE_RUN = 'All numbers are the built program\'s, of one run as {}.'


def sources(look):
    """Whose numbers the page has."""
    run, differs = asked.told(look.run), disagreement(look)
    if asked.is_one_of_many(look.run):
        return [ONE_RUN.format(run)]
    if look.built is None:
        return [NOT_BUILT.format(extent(look), run)]
    if not look.is_by_model:
        agrees = '' if differs else AGREES.format(len(look.watched.samples))
        return [BY_PROGRAM.format(len(look.points), run), BY_MODEL.format(extent(look)) + agrees]
    text = NOT_COMPARED if is_cut(look) else 'its text differs.' if differs else SAME_TEXT
    return [ALL_BY_MODEL.format(run, extent(look), text)]


def course_text(look):
    if look.is_by_model:
        return 'By the model, at {:,} moments of {}{}.'.format(
            len(look.points), extent(look), '' if look.by_moves else '; live bytes at every call')
    return 'By the built program, at {:,} prefixes of all {:,} calls; live bytes at every call.'.format(
        len(look.points), look.trace.calls())


def held_note(look):
    if look.is_by_model:
        return ''
    return 'What holds the memory is by the model, at {:,} moments of {}, its peak and its end among them.'.format(
        len(look.watched.samples), extent(look))


def cost_note(look):
    watched = look.watched
    return 'By the model, of {}: {:,} acts, {:.2f} a call.'.format(extent(look), watched.moved,
                                                                  watched.moved / max(watched.calls, 1))


def title(look, other):
    name = os.path.basename(look.run.trace)
    return name + ' over time' if other is None else '%s beside %s' % (name, label(other, look))


def label(look, beside):
    """A short name of a run, which says in what it isn't the other one."""
    said = [] if look.run.trace == beside.run.trace else [os.path.basename(look.run.trace)]
    said += ['%s %s' % head for head in look.run.heads]
    said += [] if look.run[2:6] == beside.run[2:6] else [asked.machine(look.run)]
    said += [] if look.run.classes == beside.run.classes else [os.path.basename(look.run.classes)]
    return ', '.join(said) or 'as recorded'
