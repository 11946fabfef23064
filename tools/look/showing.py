"""The data of the page of a run over time, and of a second run that is laid over it."""
from shared import origin
from shared.program import PAGE

import asked
import course
import findings

SHOWN = 24                      # classes in which two runs are most apart


class Axis:
    """The one time axis of a page: lines of the trace, moved picks, or where two runs haven't the same, ended calls."""

    def __init__(self, looks):
        kinds = {look.by_moves for look in looks}
        self.is_mixed = len(kinds) == 2
        self.title = 'calls that have ended' if self.is_mixed else 'moved picks' if kinds == {True} else 'line of the trace'

    def of(self, look):
        """Where a moment of a look stands, by its position and its line."""
        if not self.is_mixed:
            return (lambda position, line: position) if look.by_moves else (lambda position, line: line)
        if not look.by_moves:
            return lambda position, line: position
        ended = {sample.position: sample.calls for sample in look.watched.samples}
        return lambda position, line: ended[position]


def curves(look, axis):
    """The points of a run and its live bytes, which are exact at every call if it is serial."""
    x_of = axis.of(look)
    points = course.told(look.points, x_of)
    if look.answers is None:
        live = {'x': points['x'], 'y': points['live']}
    else:
        calls = len(look.answers.live)
        xs = [x_of(number + 1, look.own_line(look.trace.lines[number])) for number in range(calls)]
        wanted = [point.position - 1 for point in look.points if point.position]
        live = dict(zip('xy', course.extremes(xs, look.answers.live, wanted)))
    return {'points': points, 'live': live, 'whose': findings.whose(look)}


def held(look, axis):
    """What held the memory, at each moment of the model's."""
    samples = look.watched.samples if look.watched else []
    return [course.held_of(sample, axis.of(look)) for sample in samples]


def nodes(look):
    """The hugepages of each memory node; without nodes there is one."""
    count = look.nodes()
    return [len(look.points[0].rows) // count] * count


def data(look, other=None):
    axis = Axis([look] if other is None else [look, other])
    moments, peak, point = held(look, axis), findings.held_at_peak(look), findings.peak_of(look)
    told = {
        'title': findings.title(look, other), 'x_title': axis.title, 'by_moves': look.by_moves,
        'subtitle': lines_at_the_top(look, other), 'alarms': findings.alarms(look),
        'first': findings.first_line(look), 'why': findings.why_line(look), 'cards': findings.cards(look),
        'one_of_many': asked.is_one_of_many(look.run), 'runs': [curves(look, axis)],
        'peak': look.points.index(point), 'nodes': nodes(look), 'changes': course.changes(look.points),
        'classes': [row.size for row in findings.classes(look)], 'held': moments,
        'held_peak': look.watched.samples.index(peak) if peak else 0, 'fronts': fronts(look),
        'sources': findings.sources(look), 'beside': None}
    if look.watched:
        told.update(acts=course.acts_of(look.watched), counts=course.counts_of(look.watched),
                    course_text=findings.course_text(look), held_note=findings.held_note(look),
                    cost_note=findings.cost_note(look))
    if other is not None:
        told['runs'].append(curves(other, axis))
        told['beside'] = beside(look, other)
        told['alarms'] += ['%s: %s' % (findings.label(other, look), alarm) for alarm in findings.alarms(other)]
        told['sources'] += ['%s: %s' % (findings.label(other, look), source) for source in findings.sources(other)]
    return told


def fronts(look):
    """What each of the fronts of objects is of: a CPU, a thread, or nothing."""
    return {'perthread': 'thread', 'numa': None}.get(look.run.command, 'CPU')


def line_of(look):
    calls, hugepages = look.trace.calls(), len(look.points[0].rows)
    return '{}: {:,} call{}, {}, {:,} hugepage{}'.format(look.name(), calls, 's'[calls == 1:], asked.told(look.run), hugepages,
                                                         's'[hugepages == 1:])


def lines_at_the_top(look, other):
    """Which run is shown, and where its trace came from."""
    told = [line_of(look), origin.told(look.run.trace)]
    if other is not None:
        told += ['beside ' + line_of(other)]
        told += [] if other.run.trace == look.run.trace else [origin.told(other.run.trace)]
    return told


# A second run beside the first.

def beside(look, other):
    names = [findings.label(look, other), findings.label(other, look)]
    return {'names': names, 'measures': measures(look, other), 'parts': parts(look, other), 'classes': by_class(look, other),
            'note': note(look), 'other_note': note(other)}


def note(look):
    """At which moment the parts of a run are told."""
    sample = findings.held_at_peak(look)
    return '%s (model, %s)' % (findings.where(look, sample), findings.extent(look))


def signed(text, number):
    return '0' if number == 0 else ('+' if number > 0 else '\u2212') + text


def row(what, one, two, written):
    """A row of the two values and how far the second is from the first."""
    return [what, written(one), written(two), signed(written(abs(two - one)), two - one)]


def in_mib(number):
    return '%.2f' % (number / (1 << 20))


def grouped(number):
    return '{:,}'.format(number)


def measures(look, other):
    """What both come to, by whoever told it of each."""
    peaks, lasts = ([each(one) for one in (look, other)] for each in (findings.peak_of, lambda one: one.points[-1]))
    acts = [one.watched.moved / max(one.watched.calls, 1) for one in (look, other)]
    backed = [one.watched.gains for one in (look, other)]
    return [
        row('greatest resident, MiB', *(peak.resident * PAGE for peak in peaks), in_mib),
        row('live then, MiB', *(peak.live for peak in peaks), in_mib),
        row('at line of the trace', *(peak.line for peak in peaks), grouped)[:3] + [''],
        row('most live, MiB', look.most_live[0], other.most_live[0], in_mib),
        row('resident at the end, MiB', *(last.resident * PAGE for last in lasts), in_mib),
        row('fragmentation at the end, %', *(last.frag / 10 for last in lasts), '{:.1f}'.format),
        row('requests that got nothing', *(last.nones for last in lasts), grouped),
        row('acts a call (model)', *acts, '{:.2f}'.format),
        row('hugepages backed, times (model)', *backed, grouped)]


def parts(look, other):
    """What holds the memory at each one's peak, the greatest difference first, in MiB."""
    one, two = (findings.parts_of(findings.held_at_peak(each)) for each in (look, other))
    names = sorted(findings.PARTS, key=lambda name: (-abs(two[name] - one[name]), -two[name]))
    rows = [row(findings.PARTS[name], one[name], two[name], in_mib) for name in names if one[name] or two[name]]
    return rows + [row('in all: resident', sum(one.values()), sum(two.values()), in_mib)]


def used_by_class(look):
    """The used bytes of each size of object, and those of large blocks."""
    sample = findings.held_at_peak(look)
    used = {row.size: sum(parts) for row, parts in zip(findings.classes(look), sample.held.classes)}
    return {**used, None: sum(sample.held.large)}


def by_class(look, other):
    one, two = used_by_class(look), used_by_class(other)
    sizes = sorted({*one, *two}, key=lambda each: (-abs(two.get(each, 0) - one.get(each, 0)), -two.get(each, 0), each or 0))
    rows = [('objects of %s B' % grouped(each) if each else 'large blocks', one.get(each, 0), two.get(each, 0)) for each in sizes]
    return [row(*each, in_mib) for each in rows if each[1] or each[2]][:SHOWN]
