"""What proves and builds, over an rt that proves nothing: tests/build and the script tcreplay in a small checkout of their
own, and bench/crate."""
import contextlib
import os
import re
import shutil
import subprocess
import sys
import tempfile
import time

from checks.program import TOP

SECONDS = 30

# It keeps others from the crates that its crates.txt lists, as rt does, tells when it begins and ends, and does what the
# crate's src/script says: `wait LINE` until that line was told, `say TEXT`, or `fail`. Of the program it leaves one that
# prints its words.
RT = r'''
import fcntl, os, sys, time
crate, top, told = os.path.basename(os.getcwd()), os.path.dirname(os.path.dirname(os.getcwd())), os.environ['TOLD']
held = [os.open(os.path.join(top, 'crates', line.split(':')[0].split()[0]), os.O_RDONLY)
        for line in sorted(open(os.path.join(top, 'crates.txt')))]
for folder in held:
    fcntl.flock(folder, fcntl.LOCK_EX)
def tell(text):
    with open(told, 'a') as file:
        file.write('%s %s %s\n' % (text, sys.argv[1], crate))
tell('begin')
for line in open('src/script'):
    word, _, rest = line.strip().partition(' ')
    if word == 'fail':
        sys.exit('this goal stays open')
    if word == 'say':
        print(rest, flush=True)
    for _ in range(SECONDS * 20 if word == 'wait' else 0):
        if rest in open(told).read().splitlines():
            break
        time.sleep(0.05)
tell('end')
if sys.argv[1] == 'run':
    with open('out/tcreplay', 'w') as file:
        file.write('#!/bin/sh\necho proved "$@"\n')
    os.chmod('out/tcreplay', 0o755)
'''.replace('SECONDS', str(SECONDS))


def write(path, text, mode=0o644):
    os.makedirs(os.path.dirname(path), exist_ok=True)
    with open(path, 'w') as file:
        file.write(text)
    os.chmod(path, mode)


class Checkout:
    """A repository of these crates, each with what it stands on and its script, and the commands that it may call."""

    def __init__(self, folder, crates, has_rt=True):
        self.folder = folder
        marks = {'tcreplay': ' may_wait=2'}
        write(self.path('crates.txt'),
              ''.join('%s%s: %s\n' % (name, marks.get(name, ''), low) for name, (low, _) in crates.items()))
        write(self.path('told'), '')
        for name, (_, script) in crates.items():
            write(self.path('crates/%s/src/script' % name), script)
        for name in ('tests/build', 'tcreplay'):
            os.makedirs(os.path.dirname(self.path(name)), exist_ok=True)
            shutil.copy(os.path.join(TOP, name), self.path(name))
        os.mkdir(self.path('bin'))
        for name in ('sh', 'dirname', 'readlink'):
            os.symlink(shutil.which(name), self.path('bin/' + name))
        os.symlink(sys.executable, self.path('bin/python3'))
        if has_rt:
            write(self.path('bin/rt'), '#!%s\n%s' % (sys.executable, RT), 0o755)

    def path(self, name):
        return os.path.join(self.folder, name)

    def begin(self, *words):
        return subprocess.Popen([self.path(words[0]), *words[1:]], text=True,
                                env={**os.environ, 'PATH': self.path('bin'), 'TOLD': self.path('told')}, stdin=subprocess.DEVNULL, stdout=subprocess.PIPE, stderr=subprocess.PIPE)

    def run(self, *words):
        """The status, standard output and standard error."""
        with self.begin(*words) as process:
            out, told = process.communicate(timeout=2 * SECONDS)
        return process.returncode, out, told

    def told(self):
        with open(self.path('told')) as file:
            return file.read().splitlines()

    def tell(self, line):
        with open(self.path('told'), 'a') as file:
            file.write(line + '\n')


@contextlib.contextmanager
def checkout(crates, **rest):
    with tempfile.TemporaryDirectory() as folder:
        yield Checkout(os.path.realpath(folder), crates, **rest)


WAITING = 'say rt: waiting for another rt to finish in x\n'
SQUARE = {'aside': ('low', ''), 'tcreplay': ('left right slab', ''), 'left': ('low', 'wait begin lib right\n'),
          'right': ('low', 'wait begin lib left\n'), 'low': ('', WAITING)}


def crates_are_proved_side_by_side():
    """Two that stand on a third are proved at once, behind it and before what stands on them; a crate that the program
    doesn't stand on is left alone. Each line has a time and a share, also that a run elsewhere is waited for."""
    wrong = []
    with checkout(SQUARE) as here:
        status, out, told = here.run('tests/build', '2')
        lines = here.told()
        if (status, out) != (0, '') or sorted(lines[2:4]) != ['begin lib left', 'begin lib right'] or \
                lines[:2] != ['begin lib low', 'end lib low'] or lines[6:] != ['begin run tcreplay', 'end run tcreplay']:
            wrong.append('status %d, and %r was done' % (status, lines))
        line = r'  0:\d\d +(\d+)%  (.*)'
        seen = [re.fullmatch(line, text) for text in told.splitlines()[1:]]
        if None in seen or [one[2].split(':')[0] for one in seen] != ['rt', '1 of 4', '2 of 4', '3 of 4', '4 of 4'] or \
                [int(one[1]) for one in seen] != sorted(int(one[1]) for one in seen) or seen[-1][1] != '100':
            wrong.append('it tells %r' % told)
        if here.run('tests/build') != (0, '', '') or here.told() != lines:
            wrong.append('a program that is newer than its sources is built again')
        os.utime(here.path('crates/tcreplay/out/tcreplay'), (1, 1))
        if here.run('tests/build', '2')[0] != 0 or len(here.told()) != 2 * len(lines):
            wrong.append('a program that is older than a source is kept')
    return wrong


def no_more_crates_than_are_asked_for():
    """Of six crates that stand on nothing at most two are proved at a time, where so many are asked for."""
    names = ['crate%d' % number for number in range(6)]
    with checkout({**{name: ('', '') for name in names}, 'tcreplay': (' '.join(names), '')}) as here:
        status = here.run('tests/build', '2')[0]
        running = most = 0
        for line in here.told():
            running += 1 if line.startswith('begin') else -1
            most = max(most, running)
        return [] if status == 0 and most <= 2 and len(here.told()) == 14 else ['status %d: %r' % (status, here.told())]


def the_plan_keeps_to_the_layers():
    """Of this repository, at four at a time: each crate comes behind all that it stands on, and the last one is the program,
    in less than half of the time that one at a time takes."""
    plans = [subprocess.run([os.path.join(TOP, 'tests', 'build'), '--plan', most], stdout=subprocess.PIPE, text=True,
                            timeout=SECONDS).stdout.splitlines() for most in ('1', '4')]
    names = [line.split()[-1] for line in plans[1]]
    with open(os.path.join(TOP, 'crates.txt')) as file:
        listed = [line.split(':') for line in file if ':' in line]
    wrong = ['%s comes before %s' % (name.split()[0], low) for name, rest in listed for low in rest.split()
             if name.split()[0] in names and low in names and names.index(low) > names.index(name.split()[0])]
    minutes = [int(plan[-1].split(':')[0]) for plan in plans]
    if sorted(names) != sorted(set(names)) or names[-1] != 'tcreplay' or 2 * minutes[1] > minutes[0]:
        wrong.append('plans of %r minutes, and the longer one %r' % (minutes, names))
    return wrong


def a_second_build_waits():
    """Two runs of the script at once: the second one says that it waits, nothing is proved twice, and both run the program."""
    with checkout({'low': ('', 'wait go\n'), 'tcreplay': ('low', '')}) as here:
        first = here.begin('tcreplay', 'serial', 'one')
        for _ in range(20 * SECONDS):
            if here.told():
                break
            time.sleep(0.05)
        second = here.begin('tcreplay', 'audit', 'two')
        said = second.stderr.readline()
        here.tell('go')
        outs = [process.communicate(timeout=2 * SECONDS)[0] for process in (first, second)]
        if said != 'tcreplay: another build is under way here; waiting for it\n':
            return ['the second one says %r' % said]
        if outs != ['proved serial one\n', 'proved audit two\n'] or len(here.told()) != 5:
            return ['they print %r, and %r was done' % (outs, here.told())]
    return []


def what_is_not_proved_is_told():
    """Where a crate isn't proved, what stands on it isn't tried, what the prover said is shown, and the status is 1."""
    with checkout({'low': ('', 'fail\n'), 'tcreplay': ('low', '')}) as here:
        status, out, told = here.run('tcreplay', 'serial')
        ends = told.splitlines()[-2:]
        if (status, out) != (1, '') or here.told() != ['begin lib low'] or \
                ends != ['low: this goal stays open', 'tcreplay: the program was not built: low is not proved']:
            return ['status %d, %r' % (status, told)]
    with checkout({'tcreplay': ('', '')}, has_rt=False) as here:
        status, out, told = here.run('tcreplay', 'serial')
        if (status, out) != (1, '') or not told.startswith('tcreplay: no command rt: '):
            return ['without rt: status %d, %r' % (status, told)]
    return []


def words_before_any_build():
    """Words that begin with no command are answered at once, with the line of the program and one on where to read."""
    wrong = []
    with checkout({'tcreplay': ('', '')}) as here:
        for words in ([], ['--help'], ['help'], [''], ['-x'], ['Serial'], ['serial '], ['--classes', 'T0.csv']):
            status, out, told = here.run('tcreplay', *words)
            lines = told.splitlines()
            if (status, out, lines[0], len(lines)) != (2, '', 'tcreplay: usage', 2) or \
                    here.path('README.md') not in lines[1] or here.told():
                wrong.append('%r: status %d, %r' % (words, status, told))
    return wrong


# It tells the lines of crates.txt and the files of the crate, and leaves a program that prints its first word.
MEASURED = r"""#!/bin/sh
mkdir -p out
{ cat ../../crates.txt; find src -type f; } >&2
printf '#!/bin/sh\necho measured $1\n' >out/${PWD##*/}
chmod +x out/${PWD##*/}
"""


def a_crate_is_measured_beside_copies():
    """bench/crate makes a repository of a program and of all that it stands on, and runs what is built there as often as it
    says, each time with its input."""
    wrong = []
    with tempfile.TemporaryDirectory() as folder:
        write(os.path.join(folder, 'rt'), MEASURED.replace('>&2', '>%s/told' % folder), 0o755)
        path = '%s:%s' % (folder, os.environ['PATH'])
        for name, inputs, listed in (('writing', [''], ['tc_model', 'tc_units', 'usage_report', 'writing']),
                                     ('reading', ['trace', 'order'], ['reading', 'tc_model', 'tc_units', 'trace_reader',
                                                                      'trace_text'])):
            done = subprocess.run([os.path.join(TOP, 'bench', 'crate'), name], env={**os.environ, 'PATH': path}, text=True,
                                  stdout=subprocess.PIPE, timeout=2 * SECONDS)
            with open(os.path.join(folder, 'told')) as file:
                told = [line.split(':')[0] for line in file.read().splitlines()]
            lines = [line for line in done.stdout.splitlines() if line.startswith('measured')]
            if done.returncode or lines != [('measured ' + word).strip() for word in inputs for _ in range(5)] or \
                    sorted(told) != sorted(listed + ['src/main.rt']):
                wrong.append('%s: status %d, %r, over %r' % (name, done.returncode, lines, told))
    return wrong


CASES = [crates_are_proved_side_by_side, no_more_crates_than_are_asked_for, the_plan_keeps_to_the_layers,
         a_second_build_waits, what_is_not_proved_is_told, words_before_any_build, a_crate_is_measured_beside_copies]
