"""Stored cases: those of tests/rows, and the examples."""
import os
import re
import sys

from checks.program import (EXAMPLES, MODEL, ORDER, PROGRAM, ROWS, SERIAL, SMALL_TABLE, UNBUILT, differences, read,
                            read_if, run)


class Case:
    """A stored case: what is run, and what must come of it."""

    def __init__(self, name):
        self.name = name
        self.why = ''
        self.program = PROGRAM
        self.words = SERIAL
        self.files = {b'T0.csv': SMALL_TABLE}
        self.stdin = b''
        self.stdout = b''
        self.calls = None
        self.lines = None
        self.stderr = b''
        self.status = 0

    def check(self):
        return self.wrong_of(run(self.words, self.stdin, self.files, self.program))

    def wrong_of(self, result):
        """What is wrong with what came of a run."""
        if self.lines is not None:
            came = result[1].split(b'\n')
            missing = [line for line in self.lines.split(b'\n') if not set(line.split(b' | ')) & set(came)]
            return (differences((result[0], b'', result[2]), self.status, b'', self.stderr)
                    + ['stdout %r has no line %r' % (result[1][:300], line) for line in missing])
        if self.calls is None:
            return differences(result, self.status, self.stdout, self.stderr)
        wrong = differences((result[0], b'', result[2]), self.status, b'', self.stderr)
        head = self.calls + b'calls %d\n' % self.calls.count(b'\n')
        if not result[1].startswith(head) or not result[1].endswith(b'\n'):
            wrong.append('stdout %r in place of %r and a summary' % (result[1][:300], head[:300]))
        return wrong

    def show(self):
        """What is run, what is expected and what came, for a person."""
        status, stdout, stderr = run(self.words, self.stdin, self.files, self.program)
        print('%s: %s' % (self.name, self.why))
        print('words: %s' % b' '.join(self.words).decode(errors='backslashreplace'))
        for name, data in sorted(self.files.items()):
            shown('file ' + name.decode(errors='backslashreplace'), data)
        shown('standard input', self.stdin)
        if self.lines is not None:
            shown('expected lines of the output', self.lines)
        elif self.calls is None:
            shown('expected output', self.stdout)
        else:
            shown('expected output, before the rest of its summary',
                  self.calls + b'calls %d\n' % self.calls.count(b'\n'))
        shown('output', stdout)
        shown('expected notes', self.stderr)
        shown('notes', stderr)
        print('expected status: %d' % self.status)
        print('status: %d' % status)


def shown(what, data):
    print('%s:%s' % (what, '' if data else ' nothing'))
    for line in data.splitlines(keepends=True):
        print('    ' + line.decode(errors='backslashreplace').rstrip('\n'))


ESCAPE = re.compile(rb'\\(n|r|\\|x[0-9a-f]{2})')
ESCAPED = {b'n': b'\n', b'r': b'\r', b'\\': b'\\'}


def unescaped(text):
    """The bytes that a text with escapes stands for."""
    if re.sub(ESCAPE, b'', text).count(b'\\'):
        raise ValueError('%r has a backslash that begins no escape' % text)
    return ESCAPE.sub(lambda m: ESCAPED.get(m[1]) or bytes([int(m[1][1:], 16)]), text)


def bytes_of(line):
    """The bytes that a line of a block stands for: it ends with a line feed, unless a backslash takes
    that away."""
    if line.endswith(b'\\') and (len(line) - len(line.rstrip(b'\\'))) % 2 == 1:
        return unescaped(line[:-1])
    return unescaped(line) + b'\n'


def word_of(text):
    return b'' if text == b'""' else unescaped(text)


class Reader:
    """Reads the cases of a file, line by line."""

    def __init__(self):
        self.cases = []
        self.take = None        # what takes the bytes of a block's lines

    def read(self, line):
        if line.startswith(b'    '):
            if self.take is None:
                raise ValueError('bytes that belong to nothing')
            self.take(bytes_of(line[4:]))
        elif line.startswith(b'  '):
            self.cases[-1].why = line.strip().decode()
        elif line and not line.startswith(b'#'):
            word, _, rest = line.partition(b' ')
            if word == b'case':
                self.cases.append(Case(rest.decode()))
                self.take = None
            else:
                self.take = self.begin(self.cases[-1], word, rest)

    def begin(self, case, word, rest):
        """Begins a part of a case, and answers what takes the bytes of its block, if it may have one."""
        if word == b'words':
            case.words = [word_of(text) for text in rest.split()]
            return None
        if word == b'example':
            case.files[rest] = read(EXAMPLES, rest.decode())
            return None
        if word == b'status':
            case.status = int(rest)
            return None
        if word == b'order' and case.words is SERIAL:
            case.words = ORDER
        if word in (b'file', b'order'):
            name = b'O' if word == b'order' else word_of(rest)
            case.files[name] = b''

            def take(data):
                case.files[name] += data
            return take
        part = {b'input': 'stdin', b'output': 'stdout', b'calls': 'calls', b'lines': 'lines',
                b'notes': 'stderr'}.get(word)
        if part is None:
            raise ValueError('a case has no part %r' % word)
        setattr(case, part, b'')

        def take_more(data):
            setattr(case, part, getattr(case, part) + data)
        return take_more


def cases_of(name):
    """The cases of a file of tests/rows."""
    reader = Reader()
    for number, line in enumerate(read(ROWS, name).split(b'\n'), 1):
        try:
            reader.read(line)
        except (ValueError, IndexError) as fault:
            sys.exit('tests/rows/%s, line %d: %s' % (name, number, fault))
    return reader.cases


def words_of_example(name):
    if os.path.exists(os.path.join(EXAMPLES, name + '.words')):
        return read(EXAMPLES, name + '.words').split()
    if os.path.exists(os.path.join(EXAMPLES, name + '.order')):
        return [b'order', b'--classes', b'T0.csv', b'--order', name.encode() + b'.order']
    return SERIAL


def case_of_example(name):
    case = Case('example_' + name)
    case.why = 'an example; examples/%s.md explains it' % name
    case.words = words_of_example(name)
    case.files = {word: read(EXAMPLES, word.decode()) for word in case.words
                  if os.path.exists(os.path.join(EXAMPLES, word.decode()))}
    case.stdin = read_if(EXAMPLES, name + '.trace')
    case.stdout = read(EXAMPLES, name + '.out')
    case.stderr = read_if(EXAMPLES, name + '.notes')
    case.status = int(read_if(EXAMPLES, name + '.status') or 0)
    return case


def stored_cases():
    """The cases of tests/rows, and the examples. Those of a command that isn't built are the model's, which has no worker
    threads."""
    stored = [case for name in sorted(os.listdir(ROWS)) for case in cases_of(name)]
    stored += [case_of_example(name[:-4]) for name in sorted(os.listdir(EXAMPLES)) if name.endswith('.out')]
    for case in stored:
        if set(case.words[:1]) & set(UNBUILT):
            case.program, case.words = MODEL, [word for word in case.words if word != b'--workers']
    return [case for case in stored if case.program == PROGRAM or case.status in (0, 9)]
