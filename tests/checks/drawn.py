"""Traces, orders and journals that are drawn from seeds, and where program and model differ on them."""
import concurrent.futures
import random

import model
from checks.modelled import run_by_the_model
from checks.program import PAGE, run
from checks.spoiled import spoiled_text, spoiled_words

TOY_TABLE = '16,1,4\n64,1,2\n8192,1,2\n'
EVEN_TABLE = '16,1,4\n32,1,2\n64,1,1\n'       # each class grows by 64 bytes
DRAINS = ('d ', 'z ')                           # the calls that no machine without slabs takes
SHARE_OF_FAULTS = 0.25
FAULTS = ['words', 'words', 'table', 'trace', 'trace', 'trace', 'order', 'journal', 'missing', 'several']


class Case:
    """Table, trace and order of a seed, and the command that runs them. Limits are small, so that all kinds of answers
    come. A second generator draws the command, a third one the step of a profile, and further ones the nodes, whether
    drains stay, and a fault in a quarter of the cases, so that each draws as it did without those behind it. Texts are
    strings with a letter for each byte."""

    def __init__(self, seed, command=None):
        self.draw = random.Random(seed)
        self.table = self.draw.choice([TOY_TABLE, EVEN_TABLE, self.random_table()])
        self.classes = [[int(field) for field in row.split(',')] for row in self.table.split()]
        self.mood = self.draw.choice(['objects', 'objects', 'drains', 'pages', 'both', 'regions'])
        self.heads = self.random_heads()
        self.nodes = self.random_nodes(random.Random('nodes %d' % seed)) if command == 'numa' else 1
        self.sizes = [self.random_size() for _ in range(self.draw.randint(1, 5))]
        self.live = []
        self.label = 0
        self.trace = self.random_trace()
        self.order = self.random_order() if self.draw.random() < 0.7 else None
        if command and random.Random('drains %d' % seed).random() < 0.9:
            self.trace = ''.join(line for line in self.trace.splitlines(True) if not line.startswith(DRAINS))
        self.words = self.random_words(random.Random('command %d' % seed), command)
        self.sample = self.random_sample(random.Random('sample %d' % seed))
        self.words += ['--sample', '%d' % self.sample] if self.sample else []
        if self.draw.random() < 0.1:
            self.trace = 'events %d\n' % self.random_limit() + self.trace
        self.faults = random.Random('fault %d' % seed)
        self.fault = self.faults.choice(FAULTS) if self.faults.random() < SHARE_OF_FAULTS else None
        self.audit_words = ['audit', '--classes', 'table', '--journal', 'journal']
        self.journal, self.missing = '', []
        self.spoil()

    def spoil(self):
        """Does what the fault says, but to a journal, which isn't there yet."""
        if self.fault == 'words':
            self.words = spoiled_words(self.faults, self.words)
            self.audit_words = spoiled_words(self.faults, self.audit_words)
        elif self.fault == 'table':
            self.table = spoiled_text(self.faults, self.table, ',')
        elif self.fault == 'trace':
            self.trace = spoiled_text(self.faults, self.trace)
        elif self.fault == 'order':
            self.order = spoiled_text(self.faults, self.order or '0\n')
        elif self.fault == 'missing':
            self.missing = [self.faults.choice(['table', 'order', 'journal'])]
        elif self.fault == 'several':
            self.table, self.trace = spoiled_text(self.faults, self.table, ','), spoiled_text(self.faults, self.trace)
            self.order = spoiled_text(self.faults, self.order or '0\n')

    def random_table(self):
        """One class to five, with at most 2048 objects in a span."""
        draw, rows, size = self.draw, '', 0
        for _ in range(draw.randint(1, 5)):
            size += 8 * draw.choice([1, 2, 7, 40, 300, 1024, 3000])
            least = -(-size // PAGE)
            pages = min(255, least + draw.choice([0, 0, 0, 1, 2, 30, 254]))
            pages = max(least, min(pages, 2048 * size // PAGE))
            rows += '%d,%d,%d\n' % (size, max(pages, 1), draw.choice([1, 2, 3, 4, 8, 128]))
        return rows

    def random_heads(self):
        draw = self.draw
        heads = {'cpus': draw.choice([1, 1, 2, 3, 4]), 'threads': draw.randint(1, 5), 'huge': draw.randint(1, 6),
                 'cache': draw.randint(0, 3), 'region': draw.randint(2, 4),
                 'slack': draw.choice([0, 0, 1, 100, 300, 600]), 'transfer': draw.randint(0, 8),
                 'slab': draw.randint(1, 8), 'percpu': self.random_percpu(),
                 'window': draw.choice([0, 0, 1, 2, 3, 5]), 'domains': draw.choice([0, 0, 1, 2, 3])}
        if self.mood == 'regions':
            heads.update(draw.choice([{'huge': 6, 'region': 4}, {'huge': 9, 'region': 3}]), slack=0)
        if self.mood == 'drains':
            heads.update({'cpus': 1, 'threads': draw.randint(2, 4)})
        for name in ('cache', 'transfer', 'slab', 'percpu'):
            if draw.random() < 0.1:
                del heads[name]
        return heads

    def random_nodes(self, draw):
        """How many nodes there are, with CPUs and threads such that several of them serve."""
        nodes = draw.choice([1, 2, 2, 3, draw.randint(1, 8)])
        self.heads.update(cpus=draw.choice([nodes, draw.randint(1, 9)]), threads=draw.randint(1, 8))
        if self.mood == 'regions':
            self.heads.update(slack=draw.choice([0, 300, 500]))     # so a region opens at once, or behind a tail or two
        return nodes

    def random_percpu(self):
        """Bytes of a few objects, so that one class's capacity is short for another's."""
        few = sum(row[0] * self.draw.randint(0, 4) for row in self.classes)
        return self.draw.choice([0, few, few, few, 3 * self.classes[-1][0], self.draw.randint(0, 4096)])

    def random_size(self):
        """Of an object, of some pages, or of a hugepage and more. Many are such that places are equally good, or that
        a limit is just met."""
        draw = self.draw
        kind = draw.random()
        if self.mood in ('objects', 'drains') or (self.mood == 'both' and kind < 0.5):
            return draw.choice(self.classes)[0] - draw.randint(0, 7)
        if self.mood == 'regions' and kind < 0.8:
            return draw.randint(257, 340) * PAGE
        if kind < 0.7:
            return draw.choice([64, 64, 128, 128, 192, draw.randint(1, 255)]) * PAGE
        if kind < 0.9:
            pages = draw.choice([draw.randint(257, 384), draw.randint(256, 900), 412, 511, 767])
            return pages * PAGE - draw.choice([0, 1])
        return draw.choice([0, 1, 256 * PAGE, 512 * PAGE, 513 * PAGE, 7 * 256 * PAGE, 1 << 40])

    def random_trace(self):
        draw = self.draw
        lines = ['%s %d' % head for head in self.heads.items()]
        weights = {'a': draw.randint(4, 12), 'f': draw.randint(0, 12), 'p': draw.choice([0, 1, 4]),
                   'd': draw.choice([0, 0, 1, 3]), 'z': draw.choice([0, 0, 1, 3]), 'r': draw.choice([0, 0, 1, 2])}
        weights.update({'drains': {'d': 6}, 'regions': {'r': 3}}.get(self.mood, {}))
        for _ in range(draw.randint(1, 50)):
            word = draw.choices(list(weights), list(weights.values()))[0]
            if word != 'f' or self.live:
                lines.append(' '.join(str(field) for field in [word, draw.randrange(self.heads['threads'])] +
                                      self.random_numbers(word)))
        return ''.join(line + '\n' for line in lines)

    def random_numbers(self, word):
        """What stands behind word and thread in a line."""
        draw, cpu = self.draw, self.draw.randrange(self.heads['cpus'])
        if word == 'a':
            self.live.append(self.label)
            self.label += 1
            return [self.live[-1], draw.choice(self.sizes) if draw.random() < 0.9 else self.random_size()]
        if word == 'f':
            return [self.live.pop(draw.randrange(len(self.live)))]
        if word == 'p':
            return [draw.randint(1, 12) if draw.random() < 0.9 else draw.randint(1, 1000000), cpu]
        if word == 'd':
            return [cpu]
        if word == 'z':
            most = self.heads.get('slab', 2048)
            number = draw.choice([draw.randint(0, min(most, 9)), most, most + 1])
            return [cpu, draw.randrange(len(self.classes)), number]
        return [draw.choice([0, 1, 5, 100, 300, 1000])]

    def random_order(self):
        """Short cuts, so that threads come between each other's acts."""
        draw = self.draw
        most = draw.choice([1, 2, 6, 25])
        lines = []
        for _ in range(draw.randint(0, 80)):
            thread, count = draw.randrange(self.heads['threads']), draw.randint(1, most)
            lines.append('%d' % thread if count == 1 else '%d %d' % (thread, count))
        return ''.join(line + '\n' for line in lines)

    def random_words(self, draw, command):
        """Caches of threads in about 3 of 10 cases where no command is asked for, few of them with a call that these don't
        take. Of one thread, worker threads answer the same."""
        words = ['--classes', 'table', '--rows'] + ([] if self.order is None else ['--order', 'order'])
        often = 0.15 if self.first_drain() else 0.6
        if draw.random() < often or command:
            is_free = self.order is None and self.heads['threads'] == 1
            words += ['--nodes', '%d' % self.nodes] if command == 'numa' else []
            return [command or 'perthread'] + words + (['--workers'] if is_free and draw.random() < 0.5 else [])
        return ['serial' if self.order is None else 'order'] + words

    def random_sample(self, draw):
        """The step of a profile in about 2 of 10 cases: of a byte, of a request or of a few, or any that there is."""
        if not self.has_slabs() or draw.random() < 0.8:
            return None
        size = draw.choice(self.sizes)
        step = draw.choice([1, draw.randint(1, 64), size, size + 1, size * draw.randint(1, 6), 1 << draw.randint(0, 30)])
        return max(1, min(step, 1 << 30))

    def has_slabs(self):
        return self.words[0] in ('serial', 'order')

    def first_drain(self):
        """The number of the first line that no machine without slabs takes, or None."""
        lines = enumerate(self.trace.splitlines(), 1)
        return next((number for number, line in lines if line.startswith(DRAINS)), None)

    def random_limit(self):
        """As many picks as there are, one less, or fewer. A run that isn't here has none."""
        picks = self.replay().moved if self.has_slabs() or not self.first_drain() else 1
        return max(1, self.draw.choice([picks, picks - 1, self.draw.randint(0, picks)]))

    def files(self):
        """What is in the folder of a run, as bytes."""
        texts = {'table': self.table, 'order': self.order or '', 'journal': self.journal}
        return {name.encode(): text.encode('latin-1') for name, text in texts.items() if name not in self.missing}

    def answers(self, runner):
        """Status, text and notes of what runs the words, and of what judges the journal."""
        trace = self.trace.encode('latin-1')
        answer = runner([word.encode('utf-8', 'surrogateescape') for word in self.words], trace, self.files())
        if runner is run:                   # the journal is the program's text, or one that was changed
            self.journal = self.journal_of(answer[1].decode('latin-1'))
        return answer, runner([word.encode('utf-8', 'surrogateescape') for word in self.audit_words], trace, self.files())

    def journal_of(self, text):
        return spoiled_text(self.faults, text) if self.fault == 'journal' else self.changed(text)

    def program(self):
        return self.answers(run)

    def changed(self, text):
        """A text as it is, or with a line left out, told twice or moved, or with a field changed."""
        lines, draw = text.splitlines(), self.draw
        kind = draw.choice(['none', 'field', 'field', 'field', 'word', 'gone', 'twice', 'moved'])
        if lines and kind != 'none':
            at = draw.randrange(len(lines))
            fields = lines[at].split(' ')
            place = draw.randrange(len(fields))
            if kind == 'field' and fields[place].isdigit():
                fields[place] = str(max(0, int(fields[place]) + draw.choice([-16, -8, -1, 1, 8, 16, 8192, 1 << 64])))
            elif kind == 'word':
                fields[place] = draw.choice(['none', '00', 'ok', 'a', 'f', '0'])
            lines[at] = ' '.join(fields)
            if kind in ('gone', 'moved'):
                line = lines.pop(at)
            if kind == 'moved':
                lines.insert(draw.randint(0, len(lines)), line)
            if kind == 'twice':
                lines.insert(at, lines[at])
        return ''.join(line + '\n' for line in lines)

    def replay(self):
        return model.Replay(self.table, self.trace, self.order or '', command=self.words[0], nodes=self.nodes).run()

    def model(self):
        """What the model answers on the trace, and on the journal."""
        return self.answers(run_alone)


def run_alone(words, stdin, files):
    """The model's answer. Of worker threads it has that of one thread, if the trace has no more of them."""
    answer = run_by_the_model(words, stdin, files)
    if answer[0] == 1 and b'--workers' in words and not has_several_threads(stdin):
        words = [word for word in words if word != b'--workers']
        answer = run_by_the_model(words, stdin, files)
    return answer


def has_several_threads(trace):
    """Whether lines of two threads may be in a trace."""
    return len({line.split(b' ')[1] for line in trace.split(b'\n') if line[:2] in (b'a ', b'f ', b'r ', b'd ', b'z ', b'p ')}) > 1


def is_same(answer, expected):
    """Whether two answers are. What only worker threads could answer is told by the model with status 1, and by the program
    as any that isn't a faulty command line."""
    return answer[0] != 2 if expected[0] == 1 else answer == expected


def differing(first, count, command=None):
    """Each case on which program and model differ, as (seed, case, the program's answer, the model's)."""
    with concurrent.futures.ThreadPoolExecutor(4) as pool:
        for start in range(first, first + count, 100):
            seeds = range(start, min(start + 100, first + count))
            cases = [Case(seed, command) for seed in seeds]
            for seed, case, answer in zip(seeds, cases, pool.map(Case.program, cases)):
                expected = case.model()
                if not all(map(is_same, answer, expected)):
                    yield seed, case, answer, expected
