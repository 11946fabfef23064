"""Measures a trace under other heads, by the built program alone. The workers of a cluster run these functions too."""
import collections
import itertools
import re

from shared import prefixes, program

from changed import COUNTING, MOST_LINES, Changed, lines_in

MOST_EVENTS = 40000000
USUAL_ACTS = 8                  # of a call: where the search for the number of acts begins
BAD_TRACE = 4                   # the program's status of a trace that has too many lines
NUMBERS = ('calls', 'releases', 'left_out', 'peak_resident', 'peak_live', 'end_resident', 'end_live', 'end_used', 'end_frag',
           'nones', 'acts')
MEASURES = ('status', 'note', 'calls', 'releases', 'left_out', 'peak_resident', 'peak_line', 'peak_live', 'end_resident',
            'end_live', 'end_used', 'end_frag', 'nones', 'acts')
OF_PEAK = ('peak_resident', 'peak_line', 'peak_live')   # not told of a run with an order file
Case = collections.namedtuple('Case', 'trace heads')    # the trace's name, and heads as ((name, value), ..); none as recorded

# How the program is run: its file, the class table, the command, and its order file and number of nodes, or None.
Machine = collections.namedtuple('Machine', 'built classes command order nodes')


def words_of(machine):
    words = [machine.command, '--classes', machine.classes]
    words += ['--order', machine.order] if machine.order is not None else []
    return words + (['--nodes', str(machine.nodes)] if machine.nodes is not None else [])


def measure(machine, data, heads, left_out, points):
    """What a run under these heads comes to, as a dict of MEASURES. A refused one has a status and a note alone."""
    row = dict.fromkeys(MEASURES, '')
    changed = Changed(data, heads, left_out)
    counted = Changed(data, {**dict(heads), COUNTING: str(MOST_EVENTS)}.items(), left_out)
    lines = lines_in(counted.data())
    if lines > MOST_LINES >= lines_in(data):
        note = 'sweep: %d lines with %s and a head %s, which counts acts; a trace has at most %d'
        return dict(row, status=BAD_TRACE, note=note % (lines, told(heads), COUNTING, MOST_LINES))
    trace = prefixes.Trace(changed.data())
    done = program.run(machine.built, words_of(machine), trace.data)
    row['status'] = done.status
    if done.status == 0:
        row.update(measured(machine, trace, done.text, points), left_out=left_out)
        row['releases'] = trace.calls() - prefixes.Trace(changed.rest).calls()
        row['peak_line'] = row['peak_line'] and changed.own_line(row['peak_line'])
        row['acts'] = acts_of(machine, counted, trace.calls())
    else:
        row['note'] = re.sub(r'(?<=trace line )[0-9]+', lambda found: str(changed.own_line(int(found[0]))),
                             program.refusal(done))
    return row


def told(heads):
    return ' '.join('%s=%s' % head for head in heads) or 'the heads of the trace'


def measured(machine, trace, text, points):
    """The end of a run, and its peak if a prefix of the trace is a moment of the run: not with an order file."""
    series = prefixes.Series(machine.built, words_of(machine) + ['--rows'], trace, 1, machine.nodes or 1)
    if machine.order is not None:
        summary = program.summary_of(text)
        nones = sum(line.startswith(b'a ') and line.endswith(b' none') for line in text.split(b'\n'))
        return dict(of_end(summary), calls=summary.calls, nones=nones)
    series.whole()
    series.look_at_some(min(points, trace.calls()))
    peak, end = series.greatest(), series.points[trace.calls()]
    return dict(of_end(end), calls=trace.calls(), peak_resident=peak.resident * program.PAGE, peak_line=peak.line,
                peak_live=peak.live, nones=end.nones)


def of_end(end):
    return {'end_resident': end.resident * program.PAGE, 'end_live': end.live, 'end_used': end.used, 'end_frag': end.frag}


def acts_of(machine, counted, calls):
    """The number of acts is the least head `events` under which the run ends. It stands in its place already."""
    place = next(place for place, name in counted.named.items() if name.startswith(COUNTING + '='))
    rest = counted.data()[sum(len(line) + 1 for line in counted.lines):]

    def ends_within(events):
        lines = list(counted.lines)
        lines[place - 1] = b'%s %d' % (COUNTING.encode(), events)
        data = b''.join(line + b'\n' for line in lines) + rest
        return program.run(machine.built, words_of(machine), data, 0).status == 0
    if not calls:
        return 0
    least, most = 0, MOST_EVENTS        # it ends within `most`, and not within `least`
    guess = max(1, min(USUAL_ACTS * calls, MOST_EVENTS - 1))
    while most - least > 1:
        least, most = (least, guess) if ends_within(guess) else (guess, most)
        guess = min((least + most) // 2, max(2 * least, least + 1))
    return most


def combinations(heads):
    """The run as recorded, and every combination of the values of these heads."""
    found = [tuple(zip(heads, values)) for values in itertools.product(*heads.values())]
    return [()] + [each for each in found if each]


def cost(row):
    """Memory and acts of a row. With an order file the memory is that at the end."""
    return row['end_resident'] if row['peak_resident'] == '' else row['peak_resident'], row['acts']


def unbeaten(rows):
    """Of the rows of each trace that ended, those of which no other one has as little memory at as little cost, each with the
    number of rows that have just the same memory and acts."""
    marked = {}
    for place, row in enumerate(rows):
        if row['status'] != 0:
            continue
        others = [cost(other) for other in rows if other['trace'] == row['trace'] and other['status'] == 0]
        own = cost(row)
        if not any(other[0] <= own[0] and other[1] <= own[1] and other != own for other in others):
            marked[place] = others.count(own)
    return marked
