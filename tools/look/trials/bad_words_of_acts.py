"""Bad inputs of acts: each has its one line, its status, and leaves all as it was. They are told as in bad_words."""
import os
import subprocess

from bad_words import NOT_UTF8, prepared, state
from support import LOOK, PROGRAM, SECONDS, same, write

import model

REFUSED = 'acts: tcreplay: trace line %d: %s'

CASES = [
    # Its words.
    ([], 2, 'acts: the following arguments are required: TRACE'),
    (['w.trace', 'x.trace'], 2, 'acts: unrecognized arguments: x.trace'),
    (['w.trace', '--points', '3'], 2, 'acts: unrecognized arguments: --points 3'),
    (['w.trace', '--into'], 2, 'acts: argument --into: expected one argument'),
    (['w.trace', '--from', '0'], 2, 'acts: argument --from: a number from 1 to 1000000 is wanted'),
    (['w.trace', '--from', 'two'], 2, 'acts: argument --from: a number from 1 to 1000000 is wanted'),
    (['w.trace', '--from', '9' * 5000], 2, 'acts: argument --from: a number from 1 to 1000000 is wanted'),
    ([NOT_UTF8 + '.trace'], 2, 'acts: argument TRACE: \'\\udcff.trace\' isn\'t UTF-8'),
    (['w.trace', '--into', NOT_UTF8], 2, 'acts: argument --into: \'\\udcff\' isn\'t UTF-8'),
    # Which run is meant.
    (['w.trace', '--command', 'workers'], 1, 'acts: running threads come as they come, so no page can tell their acts; an order'),
    (['w.trace', '--command', 'perthread', '--workers'], 1, 'acts: running threads come as they come'),
    (['w.trace', '--command', 'gen'], 1, 'acts: gen is no command that can be looked at'),
    (['w.trace', '--command', 'numa'], 1, 'acts: numa wants --nodes N'),
    (['w.trace', '--command', 'numa', '--nodes', '9'], 1, 'acts: --nodes is a number from 1 to 8, and not 9'),
    (['w.trace', '--command', 'order'], 1, 'acts: order wants --order FILE'),
    (['drain.trace', '--command', 'perthread'], 1, REFUSED % (2, 'nothere')),
    (['drain.trace', '--command', 'numa', '--nodes', '2'], 1, REFUSED % (2, 'nothere')),
    (['audited.trace'], 1, 'acts: audited.words says audit, which is no run that can be looked at'),
    (['foreign.trace'], 1, 'acts: foreign.words has no words of a run'),
    # What it reads.
    (['none.trace'], 1, 'acts: none.trace: No such file or directory'),
    (['folder'], 1, 'acts: folder: Is a directory'),
    (['/dev/zero'], 1, 'acts: /dev/zero is longer than 67108864 bytes'),
    (['abc.trace'], 1, REFUSED % (1, 'number')),
    (['much.trace'], 1, REFUSED % (1, 'number')),
    (['late.trace'], 1, REFUSED % (2, 'headlate')),
    (['twice.trace'], 1, REFUSED % (2, 'labelused')),
    (['endless.trace'], 1, REFUSED % (3, 'labelunknown')),
    (['short.trace'], 1, 'acts: the trace has no call'),
    (['limit.trace'], 1, 'acts: tcreplay: events limit 1'),
    (['w.trace', '--classes', 'w.trace'], 1, 'acts: tcreplay: table row 1: fields'),
    (['w.trace', '--classes', '/dev/zero'], 1, 'acts: '),
    (['w.trace', '--order', 'bad.order'], 1, 'acts: tcreplay: order line 1: thread'),
    (['w.trace', '--order', 'none.order'], 1, 'acts: '),
    (['lesson.trace'], 1, 'acts: lesson.md isn\'t UTF-8'),
    (['long.trace'], 1, 'acts: the run has more than 5000 acts; --from LINE shows as many from that line on'),
    (['w.trace', '--from', '6'], 1, 'acts: no call is of trace line 6 or a later one; the last is of line 5'),
    # Another program.
    (['w.trace', '--program', 'none'], 1, 'acts: none isn\'t built; ./tcreplay builds the program of this checkout'),
    (['w.trace', '--program', '/bin/true'], 1, 'acts: what was run isn\'t tcreplay: its text has no summary'),
    (['w.trace', '--program', '/bin/false'], 1, 'acts: the program ended with status 1'),
    (['w.trace', '--program', './endless'], 1, 'acts: what was run prints without end: it isn\'t tcreplay'),
    (['w.trace', '--program', './other'], 1, 'acts: what was run isn\'t tcreplay: it tells of 0 calls, and the trace has 4'),
    (['w.trace', '--program', './words'], 1, 'acts: the model\'s text isn\'t the program\'s: please tell the project'),
    # What it writes.
    (['w.trace', '--into', 'none/w.html'], 1, 'acts: HERE/none: there is no such folder'),
    (['w.trace', '--into', 'folder'], 1, 'acts: folder is a folder'),
    (['w.trace', '--into', '/dev/full', '--force'], 1, 'acts: /dev/full is no regular file and isn\'t replaced'),
    (['w.trace', '--into', 'w.trace', '--force'], 1, 'acts: w.trace is read and isn\'t replaced'),
    (['w.trace', '--into', 'T0.csv', '--force'], 1, 'acts: T0.csv is read and isn\'t replaced'),
    (['w.trace', '--order', 'p.order', '--into', 'p.order', '--force'], 1, 'acts: p.order is read and isn\'t replaced'),
    (['lesson.trace', '--into', 'lesson.md', '--force'], 1, 'acts: lesson.md is read and isn\'t replaced'),
    (['odd.trace', '--command', 'serial', '--into', 'odd.words', '--force'], 1, 'acts: odd.words is read and isn\'t replaced'),
    (['w.trace', '--into', 'link.html', '--force'], 1, 'acts: link.html is a link and isn\'t replaced'),
    (['w.trace', '--into', 'dangling.html', '--force'], 1, 'acts: dangling.html is a link and isn\'t replaced'),
    (['w.trace', '--into', 'own.html'], 1, 'acts: own.html is there, and isn\'t replaced without --force'),
    (['w.trace', '--into', 'nothing.html'], 1, 'acts: nothing.html is there, and isn\'t replaced without --force'),
    (['w.trace', '>&-'], 1, 'acts: standard output is closed'),
    (['w.trace', '>/dev/full'], 1, 'acts: standard output: No space left on device')]


def outcome(folder, words):
    """The status, standard output and standard error of acts with these words, of which the last may be a redirection."""
    redirection = words[-1] if words and words[-1].startswith('>') else ''
    words = words[:-1] if redirection else words
    usual = [] if not words or '--classes' in words or os.path.exists(folder + '/' + words[0].replace('.trace', '.words')) else [
        '--classes', 'T0.csv']
    usual += ['--program', PROGRAM] if words and '--program' not in words else []
    done = subprocess.run(['sh', '-c', 'exec "$@" ' + redirection, 'sh', os.path.join(LOOK, 'acts'), *words, *usual], cwd=folder,
                          stdin=subprocess.DEVNULL, stdout=subprocess.PIPE, stderr=subprocess.PIPE, timeout=SECONDS)
    return done.returncode, done.stdout, done.stderr.decode(errors='surrogateescape')


def test_each_bad_input_of_acts_has_its_line_and_leaves_all_as_it_was(folder):
    here = os.path.realpath(folder) + '/here'
    os.mkdir(here)
    prepared(here)
    write(here + '/long.trace', model.made_trace(1, 3000, 2))
    write(here + '/lesson.trace', 'a 0 0 1\n')
    with open(here + '/lesson.md', 'wb') as file:
        file.write(b'# \xff\n')
    before = state(here)
    for words, status, line in CASES:
        line = line.replace('HERE', here)
        came = outcome(here, words)
        shown = 'acts %s' % ' '.join(word[:40] for word in words)
        same(shown, (came[0], came[1], came[2][:len(line)]), (status, b'', line))
        same(shown + ': lines', (came[2].count('\n'), came[2].endswith('\n')), (1, True))
        after = state(here)
        if words and words[-1] == '>/dev/full':         # the page is made, and its name isn't told
            os.unlink(here + '/w.acts.html')
            after.pop(here + '/w.acts.html')
        changed = {os.path.basename(name) for name in {*before, *after} if before.get(name) != after.get(name)}
        same(shown + ': what was there', changed, set())
