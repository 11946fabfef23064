"""Looks at one run of a trace: by the built program as far as it can tell, and by the model."""
import os
import re

from shared import ends, prefixes, program
from shared.ends import Stop
from changed import Changed, lines_in, MOST_LINES as MOST_TRACE_LINES

import asked
import course
import watching

MOST_HELD = 48                  # moments at which the model says what holds the memory
MOST_LINES = 20000              # of a trace that the model is taken for where the program isn't built


class Look:
    """A run, and what was found of it. `built` is the program, or None where all numbers are the model's."""

    def __init__(self, run, built, points, seconds):
        self.run, self.built, self.number, self.seconds = run, built, points, seconds
        own = ends.read_bytes(run.trace)
        self.changed = Changed(own, run.heads)
        self.trace = prefixes.Trace(self.changed.data() if run.heads else own)
        if run.heads and lines_in(own) <= MOST_TRACE_LINES < lines_in(self.trace.data):
            raise Stop('%s has %d lines, and so no room for a head that it hasn\'t' % (run.trace, lines_in(own)))
        self.table = ends.read_bytes(run.classes).decode('latin-1')
        self.order = ends.read_bytes(run.order).decode('latin-1') if run.order is not None else ''
        self.by_moves = run.order is not None
        self.is_by_model = built is None or self.by_moves
        self.answers = self.watched = self.text = self.most_live = None
        if built is None:
            self.check_short()

    def check_short(self):
        lines = self.trace.lines_in_all()
        if asked.is_one_of_many(self.run):
            raise Stop('the program isn\'t built, and running threads need it: ./tcreplay builds it')
        if lines > MOST_LINES:
            raise Stop('the program isn\'t built: ./tcreplay builds it; by the model a trace has at most %d lines, and %s has %d'
                       % (MOST_LINES, self.run.trace, lines))

    def nodes(self):
        return int(self.run.nodes or 1)

    def own_line(self, line):
        """The line as it is in the trace without the heads that were added."""
        return self.changed.own_line(line) if self.run.heads else line

    def named(self, line):
        """A line of the run's trace as a refusal names it: by its own number, or by the head that was asked for."""
        own = self.own_line(line)
        return 'trace line %d' % own if isinstance(own, int) else 'head %s' % own

    def whole_text(self):
        """The text of the whole run, by the program or by the model as one."""
        built = self.built or program.model_of_rules()
        done = program.run(built, asked.words_of(self.run), self.trace.data)
        if done.status:
            raise Stop(re.sub(r'trace line ([0-9]+)', lambda found: self.named(int(found[1])), program.refusal(done)))
        prefixes.checked_summary(done.text[-program.tail_bytes(self.nodes() * self.trace.hugepages()):], self.trace.calls())
        return done.text

    def look(self):
        text = self.whole_text()
        if not self.trace.calls():
            raise Stop('%s has no call' % self.run.trace)
        if self.number is None and not self.by_moves and self.trace.calls() > prefixes.MOST_POINTS:
            raise Stop('%d calls are too many to look at all of them; the most are %d'
                       % (self.trace.calls(), prefixes.MOST_POINTS))
        if asked.is_one_of_many(self.run):
            self.look_at_the_end(text)
        elif self.is_by_model:
            self.look_by_model(text)
        else:
            self.look_by_program()
        if self.run.heads:
            self.points = [point._replace(line=self.own_line(point.line)) for point in self.points]
        return self

    def series(self):
        words = asked.words_of(self.run)
        return prefixes.Series(self.built, words, self.trace, program.processors(), self.nodes())

    def look_at_the_end(self, text):
        """One of many runs: how it ended, and nothing of its course, which no order file repeats."""
        series = self.series()
        summary = program.summary_of(text[-series.keep:])
        nones = sum(line.startswith(b'a ') and line.endswith(b' none') for line in text.split(b'\n'))
        calls = self.trace.calls()
        series.answers = type('Counted', (), {'nones': {calls - 1: nones}})
        series.note(calls, summary)
        self.points = series.sorted()

    def look_by_program(self):
        """The course by the program, then the model through the trace, and then the program at the model's moments."""
        series = self.series()
        self.answers = series.whole()
        with program.progress_bar(self.number or self.trace.calls(), 'program', 'points') as progress:
            if self.number is None:
                series.look_at_all(progress)
            else:
                series.look_at_some(max(1, self.number - MOST_HELD), progress)
        peak = series.greatest().position
        self.watched = self.watch(MOST_HELD - 2, {peak}, None)
        series.look_at(sample.position for sample in self.watched.samples)
        self.points = series.sorted()
        live = max(range(len(self.answers.live)), key=self.answers.live.__getitem__)
        self.most_live = self.answers.live[live], self.own_line(self.trace.lines[live])

    def look_by_model(self, text):
        """All by the model: once for all but the peak, and once more up to there if its moment isn't kept."""
        self.text = text
        number = self.number if self.number is None else max(1, self.number - 2)
        if self.number is None:
            number = prefixes.MOST_POINTS
        self.watched = self.watch(number, set(), None)
        peak = self.watched.peak[1]
        if peak and peak not in {sample.position for sample in self.watched.samples}:
            again = self.watch(0, {peak}, peak)
            samples = sorted(self.watched.samples + again.samples, key=lambda sample: sample.position)
            self.watched = self.watched._replace(samples=samples)
        self.points = [course.point_of(sample) for sample in self.watched.samples]
        if not self.by_moves:
            self.answers = prefixes.Answers(text, self.trace.calls())
        self.most_live = self.watched.live_peak[0], self.own_line(self.watched.live_peak[1])

    def watch(self, number, wanted, until):
        plan = watching.Plan(self.table, self.trace.data.decode('latin-1'), self.order, self.run.command, self.nodes(),
                             self.by_moves, number, wanted, until, self.seconds / (2 if self.is_by_model else 1))
        watched = watching.watched(plan)
        if self.run.heads:
            watched = watched._replace(samples=[sample._replace(line=self.own_line(sample.line)) for sample in watched.samples])
        return watched

    def name(self):
        return os.path.basename(self.run.trace)
