"""Bad inputs of look: each has its one line, its status, and leaves all as it was.

A case is its words, its status and the line on standard error, or how it begins. They run in a folder that `prepared`
makes. A last word `>closed`, `>full` or `>left` says what standard output is: closed, a full device, or a pipe that
nobody reads.
"""
import os
import shutil
import subprocess

from support import EXAMPLES, LOOK, PROGRAM, SECONDS, same, write

NOT_UTF8 = os.fsdecode(b'\xff')
WANTED = 'look: argument %s: a number from %d to %d is wanted'
REFUSED = 'look: tcreplay: trace line %d: %s'

CASES = [
    # Its words.
    ([], 2, 'look: the following arguments are required: TRACE'),
    (['w.trace', 'x.trace'], 2, 'look: unrecognized arguments: x.trace'),
    (['w.trace', '--nothing'], 2, 'look: unrecognized arguments: --nothing'),
    (['w.trace', '--class', 'T0.csv'], 2, 'look: unrecognized arguments: --class T0.csv'),
    (['w.trace', '--into'], 2, 'look: argument --into: expected one argument'),
    ([NOT_UTF8 + '.trace'], 2, 'look: argument TRACE: \'\\udcff.trace\' isn\'t UTF-8'),
    (['w.trace', '--classes', NOT_UTF8], 2, 'look: argument --classes: \'\\udcff\' isn\'t UTF-8'),
    (['w.trace', '--into', NOT_UTF8], 2, 'look: argument --into: \'\\udcff\' isn\'t UTF-8'),
    (['w.trace', '--points', '0'], 2, WANTED % ('--points', 1, 20000)),
    (['w.trace', '--points', 'some'], 2, WANTED % ('--points', 1, 20000)),
    (['w.trace', '--points', '9' * 5000], 2, WANTED % ('--points', 1, 20000)),
    (['w.trace', '--points', '\u0663'], 2, WANTED % ('--points', 1, 20000)),
    (['w.trace', '--seconds', '-1'], 2, WANTED % ('--seconds', 1, 86400)),
    (['w.trace', '--seconds', '01'], 2, WANTED % ('--seconds', 1, 86400)),
    # Which run is meant.
    (['w.trace', '--command', 'gen'], 1, 'look: gen is no command that can be looked at'),
    (['w.trace', '--command', 'numa'], 1, 'look: numa wants --nodes N'),
    (['w.trace', '--command', 'numa', '--nodes', '0'], 1, 'look: --nodes is a number from 1 to 8, and not 0'),
    (['w.trace', '--command', 'numa', '--nodes', '9'], 1, 'look: --nodes is a number from 1 to 8, and not 9'),
    (['w.trace', '--command', 'perthread', '--nodes', '2'], 1, 'look: --nodes is of numa alone, and not of perthread'),
    (['w.trace', '--command', 'order'], 1, 'look: order wants --order FILE'),
    (['w.trace', '--command', 'serial', '--order', 'p.order'], 1, 'look: --order isn\'t of serial'),
    (['w.trace', '--workers'], 1, 'look: --workers is of perthread and numa alone'),
    (['drain.trace', '--command', 'perthread'], 1, REFUSED % (2, 'nothere')),
    (['audited.trace'], 1, 'look: audited.words says audit, which is no run that can be looked at; --command says another'),
    (['odd.trace'], 1, 'look: odd.words has the word --lock, which isn\'t known; --command says which run is meant'),
    (['empty.trace'], 1, 'look: empty.words has no words of a run; --command says which is meant'),
    (['foreign.trace'], 1, 'look: foreign.words has no words of a run; --command says which is meant'),
    (['alone.trace'], 1, 'look: none.csv: No such file or directory'),
    # What it reads.
    (['none.trace'], 1, 'look: none.trace: No such file or directory'),
    (['folder'], 1, 'look: folder: Is a directory'),
    (['abc.trace'], 1, REFUSED % (1, 'number')),
    (['much.trace'], 1, REFUSED % (1, 'number')),
    (['late.trace'], 1, REFUSED % (2, 'headlate')),
    (['twice.trace'], 1, REFUSED % (2, 'labelused')),
    (['endless.trace'], 1, REFUSED % (3, 'labelunknown')),
    (['fields.trace'], 1, REFUSED % (1, 'fields')),
    (['short.trace'], 1, 'look: short.trace has no call'),
    (['limit.trace'], 1, 'look: tcreplay: events limit 1'),
    (['w.trace', '--classes', 'w.trace'], 1, 'look: tcreplay: table row 1: fields'),
    (['w.trace', '--classes', 'none.csv'], 1, 'look: none.csv: No such file or directory'),
    (['w.trace', '--order', 'none.order'], 1, 'look: none.order: No such file or directory'),
    (['w.trace', '--order', 'bad.order'], 1, 'look: tcreplay: order line 1: thread'),
    # Another program.
    (['w.trace', '--program', 'none'], 1, 'look: none isn\'t built; ./tcreplay builds the program of this checkout'),
    (['w.trace', '--program', 'folder'], 1, 'look: folder isn\'t built'),
    (['w.trace', '--program', '/bin/true'], 1, 'look: what was run isn\'t tcreplay: its text has no summary'),
    (['w.trace', '--order', 'p.order', '--program', '/bin/true'], 1, 'look: what was run isn\'t tcreplay: its text has no summary'),
    (['w.trace', '--program', '/bin/echo'], 1, 'look: what was run isn\'t tcreplay: its text has no summary'),
    (['w.trace', '--program', '/bin/false'], 1, 'look: the program ended with status 1'),
    (['w.trace', '--program', './endless'], 1, 'look: what was run prints without end: it isn\'t tcreplay'),
    (['w.trace', '--program', './other'], 1, 'look: what was run isn\'t tcreplay: it tells of 0 calls, and the trace has 4'),
    (['w.trace', '--program', './words'], 1, 'look: what was run isn\'t tcreplay: it prints something else'),
    (['w.trace', '--program', './garbage'], 1, 'look: ./garbage can\'t be run: Exec format error'),
    # What it writes.
    (['w.trace', '--into', 'none/w.html'], 1, 'look: HERE/none: there is no such folder'),
    (['w.trace', '--into', 'folder'], 1, 'look: folder is a folder'),
    (['w.trace', '--into', '/dev/full', '--force'], 1, 'look: /dev/full is no regular file and isn\'t replaced'),
    (['w.trace', '--into', '/dev/null'], 1, 'look: /dev/null is no regular file and isn\'t replaced'),
    (['w.trace', '--into', 'w.trace', '--force'], 1, 'look: w.trace is read and isn\'t replaced'),
    (['w.trace', '--into', 'hard.html', '--force'], 1, 'look: hard.html is read and isn\'t replaced'),
    (['w.trace', '--into', 'T0.csv', '--force'], 1, 'look: T0.csv is read and isn\'t replaced'),
    (['w.trace', '--into', 'link.html', '--force'], 1, 'look: link.html is a link and isn\'t replaced'),
    (['w.trace', '--into', 'dangling.html', '--force'], 1, 'look: dangling.html is a link and isn\'t replaced'),
    (['w.trace', '--into', 'own.html'], 1, 'look: own.html is there, and isn\'t replaced without --force'),
    (['w.trace', '--into', 'nothing.html'], 1, 'look: nothing.html is there, and isn\'t replaced without --force'),
    (['w.trace', '--csv', 'w.trace'], 1, 'look: w.trace is no folder'),
    (['w.trace', '--csv', 'none/csv'], 1, 'look: HERE/none: there is no such folder'),
    (['w.trace', '--csv', 'tables'], 1, 'look: tables/series.csv is there, and isn\'t replaced without --force'),
    (['w.trace', '>closed'], 1, 'look: standard output is closed'),
    (['w.trace', '>full'], 1, 'look: standard output: No space left on device'),
    (['w.trace', '>left'], 1, 'look: standard output: Broken pipe'),
    # A second run.
    (['w.trace', '--beside'], 2, 'look: argument --beside: expected at least one argument'),
    (['w.trace', '--beside', 'cache=abc'], 1, 'look: the head cache is a number from 0 to 4096, and not abc'),
    (['w.trace', '--beside', 'cache=' + '9' * 5000], 1, 'look: the head cache is a number from 0 to 4096, and not 9999'),
    (['w.trace', '--beside', 'cache=1', 'cache=2'], 1, 'look: --beside has cache twice'),
    (['w.trace', '--beside', 'cahe=1'], 1, 'look: --beside has cahe, which is no head of a trace'),
    (['w.trace', '--beside', 'drain.trace', 'fields.trace'], 1, 'look: --beside takes one trace'),
    (['w.trace', '--beside', 'none.trace'], 1, 'look: none.trace: No such file or directory'),
    (['w.trace', '--beside', 'command=workers'], 1, 'look: --beside isn\'t of a run by running threads'),
    (['drain.trace', '--beside', 'cache=1', 'command=perthread'], 1, REFUSED % (2, 'nothere'))]

FILES = {
    'w.trace': 'cache 1\na 0 0 10\na 0 1 4194304\nf 0 1\na 0 2 100000\n', 'p.order': '0\n', 'bad.order': '7\n',
    'drain.trace': 'a 0 0 1\nd 0 0\n', 'abc.trace': 'huge abc\na 0 0 1\n', 'much.trace': 'huge 18446744073709551616\n',
    'late.trace': 'a 0 0 1\nhuge 2\n', 'twice.trace': 'a 0 0 1\na 0 0 1\n', 'endless.trace': 'a 0 0 5\na 0 1 5\nf 0 7\n',
    'fields.trace': 'a 0 0\n', 'short.trace': 'huge 4\n', 'limit.trace': 'events 1\na 0 0 100000\n',
    'own.html': '<!DOCTYPE html>\n<html>mine</html>\n', 'nothing.html': '', 'tables/series.csv': 'mine\n',
    'audited.trace': 'a 0 0 1\n', 'audited.words': 'audit --classes T0.csv --journal j\n',
    'odd.trace': 'a 0 0 1\n', 'odd.words': 'serial --lock one\n', 'empty.trace': 'a 0 0 1\n', 'empty.words': '\n',
    'foreign.trace': 'a 0 0 1\n', 'alone.trace': 'a 0 0 1\n', 'alone.words': 'serial --classes none.csv\n',
    'endless': '#!/bin/sh\nexec yes\n', 'words': '#!/bin/sh\nprintf "a\\n%.0s" 1 2 3 4\n'
    'printf "calls 4\\nlive 0 0\\nused 0\\nresident 0\\nfrag 0\\n"\n',
    'other': '#!/bin/sh\nprintf "calls 0\\nlive 0 0\\nused 0\\nresident 0\\nfrag 0\\n"\n', 'garbage': 'no program\n'}


def prepared(folder):
    for name in ('folder', 'tables'):
        os.mkdir(os.path.join(folder, name))
    for name, text in FILES.items():
        write(os.path.join(folder, name), text)
    for name in ('endless', 'words', 'other', 'garbage'):
        os.chmod(os.path.join(folder, name), 0o755)
    with open(folder + '/foreign.words', 'wb') as file:
        file.write(b'serial \xff\n')
    shutil.copy(os.path.join(EXAMPLES, 'T0.csv'), folder)
    os.link(folder + '/w.trace', folder + '/hard.html')
    os.symlink('own.html', folder + '/link.html')
    os.symlink('nowhere', folder + '/dangling.html')


def state(folder):
    """What is there, but for what a run may make of its own: a page or tables that are new and whole."""
    found = {}
    for path, _, names in os.walk(folder):
        for name in names:
            place = os.path.join(path, name)
            with open(os.devnull if os.path.islink(place) else place, 'rb') as file:
                found[place] = os.readlink(place) if os.path.islink(place) else file.read()
    return found


def outcome(folder, words):
    """The status, standard output and standard error of look with these words."""
    output = words[-1][1:] if words and words[-1].startswith('>') else None
    words = words[:-1] if output else words
    usual = [word for name, word in (('--classes', 'T0.csv'), ('--program', PROGRAM)) if name not in words for word in (name, word)]
    if words and os.path.exists(folder + '/' + words[0].replace('.trace', '.words')):
        usual = usual[2:]
    command = [os.path.join(LOOK, 'look'), *words, *(usual if words else [])]
    if output == 'closed':
        command = ['sh', '-c', 'exec "$@" >&-', 'sh', *command]
    reader, writer = os.pipe()
    os.close(reader)
    full = os.open('/dev/full', os.O_WRONLY)
    stdout = {'full': full, 'left': writer}.get(output, subprocess.PIPE)
    try:
        done = subprocess.run(command, cwd=folder, stdin=subprocess.DEVNULL, stdout=stdout, stderr=subprocess.PIPE,
                              timeout=SECONDS)
    finally:
        os.close(writer)
        os.close(full)
    return done.returncode, done.stdout or b'', done.stderr.decode(errors='surrogateescape')


def test_each_bad_input_of_look_has_its_line_and_leaves_all_as_it_was(folder):
    here = os.path.realpath(folder) + '/here'
    os.mkdir(here)
    prepared(here)
    before = state(here)
    for words, status, line in CASES:
        line = line.replace('HERE', here)
        came = outcome(here, words)
        shown = 'look %s' % ' '.join(word[:40] for word in words)
        same(shown, (came[0], came[1], came[2][:len(line)]), (status, b'', line))
        same(shown + ': lines', (came[2].count('\n'), came[2].endswith('\n')), (1, True))
        after = state(here)
        if words and words[-1] in ('>full', '>left'):           # the page is made, and its name isn't told
            os.unlink(here + '/w.html')
            after.pop(here + '/w.html')
        changed = {os.path.basename(name) for name in {*before, *after} if before.get(name) != after.get(name)}
        same(shown + ': what was there', changed, set())
