"""What sweep says of bad words and of files that it doesn't replace: one line each, and nothing that was there is lost."""
import os

from support import PROGRAM, TOY, one_line, run, same, served, tool, words_of, worked, write

# Words beside a trace, the status, and what the line says. In words {} is the test's folder.
WORDS = [
    (['huge=1', '--points', '0'], 2, '--points: a number from 1 to 20000 is wanted'),
    (['huge=1', '--points', 'abc'], 2, '--points: a number from 1 to 20000 is wanted'),
    (['huge=1', '--nodes', '9'], 2, '--nodes: a number from 1 to 8 is wanted'),
    (['huge=1', '--classes'], 2, '--classes: expected one argument'),
    (['huge=1', '--clas', 'x'], 2, 'unrecognized arguments'),
    (['caches=1'], 1, 'caches is no head of a trace'),
    (['=1'], 1, 'an empty word is no head of a trace'),
    (['huge=1', 'cache=1', 'huge=2'], 1, 'huge is named twice'),
    (['release=none', 'release=1/1'], 1, 'release is named twice'),
    (['huge='], 1, 'huge has an empty value'),
    (['huge=1,,2'], 1, 'huge has an empty value'),
    (['huge=1\na 0 0 1'], 1, 'a value of huge has a line feed'),
    (['huge=1\r'], 1, 'a value of huge has a control character: 1\\r'),
    (['huge=1,1'], 1, 'huge has the value 1 twice'),
    (['release=0/5'], 1, 'release \'0/5\' is none: wanted is L/N'),
    (['release=5/0'], 1, 'release \'5/0\' is none: wanted is L/N'),
    (['release=05/5'], 1, 'release \'05/5\' is none: wanted is L/N'),
    (['release=5'], 1, 'release \'5\' is none: wanted is L/N'),
    (['release=1000001/5'], 1, 'release \'1000001/5\' is none: wanted is L/N'),
    (['--command', 'workers'], 1, 'workers is by running threads'),
    (['--command', 'gen'], 1, 'gen is no command that sweep runs'),
    (['--command', 'numa'], 1, 'numa wants --nodes N'),
    (['--command', 'serial', '--nodes', '2'], 1, '--nodes is of numa alone'),
    (['--command', 'order'], 1, 'order wants --order FILE'),
    (['--order', '{}/o.order'], 1, '--order isn\'t of serial'),
    (['--command', 'order', '--order', '{}/none.order'], 1, 'none.order: No such file'),
    (['--classes', '{}/none.csv'], 1, 'none.csv: No such file'),
    (['--classes', '/dev/zero'], 1, '/dev/zero has more than 65536 bytes'),
    (['--scheduler', ''], 1, '--scheduler is an address as tcp://127.0.0.1:8786, and not an empty word'),
    (['--scheduler', 'here'], 1, '--scheduler is an address'),
    (['--program', '/bin/true'], 1, 'what was run isn\'t tcreplay'),
    (['--program', '/bin/echo'], 1, 'what was run isn\'t tcreplay'),
    (['--program', '{}'], 1, 'isn\'t built'),
    (['{}/none.trace'], 1, 'none.trace: No such file'),
    (['{}'], 1, 'Is a directory'),
    (['{}/w.trace'], 1, 'w.trace is named twice'),
    (['/dev/zero'], 1, '/dev/zero has more than 67108864 bytes'),
    (['--into', '{}/none/s.html'], 1, 'there is no such folder'),
    (['--into', '{}'], 1, 'is a folder'),
    (['--csv', '{}/none/s.csv'], 1, 'there is no such folder'),
    (['--into', '{}/same', '--csv', '{}/same'], 1, '--into and --csv both are'),
    ([b'huge=\xff'], 2, 'isn\'t UTF-8')]


def test_bad_words(folder):
    trace, env = write(folder + '/w.trace', 'a 0 0 10\n'), {**os.environ, 'XDG_CACHE_HOME': folder + '/cache'}
    for words, status, said in WORDS:
        own = [word if isinstance(word, bytes) else word.replace('{}', folder) for word in words]
        program = [] if '--program' in own else ['--program', PROGRAM]
        one_line(ascii(words), run([*words_of('sweep', '--program')[:1], trace, *own, *program], env=env), status, said)
    same('no page', [name for name in os.listdir(folder) if 'html' in name or 'part' in name or name == 'same'], [])


def content(path):
    with open(path) as file:
        return file.read()


def test_what_is_there_is_replaced_only_if_it_is_ours(folder):
    trace = worked(folder)
    swept = [trace, 'cache=0', '--classes', TOY]
    for option in '--into', '--csv':
        path = write(folder + '/there', 'my own')
        one_line(option, tool('sweep', *swept, option, path), 1, 'there is there, and isn\'t replaced without --force')
        same('it stays', content(path), 'my own')
        served('with force', tool('sweep', *swept, option, path, '--force'))
        same('it is ours', content(path) != 'my own', True)
        served('again', tool('sweep', *swept, option, path))
        os.symlink(path, folder + '/link' + option)
        for name, said in ((trace, 'is read and isn\'t replaced'), ('/dev/null', 'is no regular file'),
                           (PROGRAM, 'isn\'t replaced'), (TOY, 'is read and isn\'t replaced'),
                           (folder + '/link' + option, 'is a link')):
            before = os.lstat(name)
            one_line('%s %s' % (option, name), tool('sweep', *swept, option, name, '--force'), 1, said)
            same('%s stays' % name, os.lstat(name)[:7], before[:7])
    one_line('a table as page', tool('sweep', *swept, '--into', folder + '/there'), 1, 'isn\'t replaced without --force')


def test_a_table_of_another_sweep_that_is_broken(folder):
    path, swept = folder + '/s.csv', [worked(folder), 'cache=0', '--classes', TOY]
    served('sweep', tool('sweep', *swept, '--csv', path))
    whole = content(path)
    first, second, third = whole.splitlines(keepends=True)
    for name, broken in (('cut', first + second + third[:20]), ('a number that is none', whole.replace('974', 'x')),
                         ('a row too long', first + second.rstrip() + ',1,2\n')):
        write(path, broken)
        served(name, tool('sweep', *swept, '--csv', path))
        same(name, content(path), whole)


def test_standard_output_that_is_closed_or_full(folder):
    swept = words_of('sweep', worked(folder), 'cache=0', '--classes', TOY, '--csv', folder + '/s.csv')
    for shell, said in (('"$@" >&-', 'standard output is closed'), ('"$@" >/dev/full', 'standard output: No space left')):
        one_line(shell, run(['sh', '-c', shell, 'sh', *swept]), 1, said)
