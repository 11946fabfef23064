"""Bad inputs of the recorder, the import, the other small tools and the tests' own words: each with its one line and status.

A case is its words, its status and the whole line on standard error; nothing comes on standard output. The first word is a
tool of this checkout. They run in a folder that `prepared` makes; HERE stands for its path. A word may end in what the shell
makes of it: `>full` and `>closed` say what standard output is.
"""
import gzip
import os
import struct

RECORD, IMPORT, CLASSES, DEFINITIONS = 'tools/record/record', 'tools/record/import', 'tools/classes', 'tools/definitions'
SETUP, RUN, COMPARE, BUILD = 'tools/setup', 'tests/run', 'tests/compare', 'tests/build'
AGAIN = [RECORD, '--again', '--into']
INTO = [IMPORT, '--into', 'new']
NOT_UTF8 = os.fsdecode(b'\xff')

HEADS = 'cache, region, slack, transfer, slab, percpu, events, window, domains'
RELEASE = 'record: argument --release: release %r is none: wanted is L/N, of L lines of calls from 1 to 1000000 and N pages' \
    ' from 1 to 1048576'
WANTED = 'record: argument %s: a number from %d to %d is wanted'

CASES = [
    # The recorder's words.
    ([RECORD], 2, 'record: a program is wanted, or --again'),
    ([RECORD, '--'], 2, 'record: a program is wanted, or --again'),
    ([RECORD, '--again'], 2, 'record: --again wants --into'),
    ([RECORD, '--again', '--into', 'logged', 'true'], 2, 'record: a program is wanted, or --again'),
    ([RECORD, '--force', 'true'], 2, 'record: --force wants --again'),
    ([RECORD, '--nothing', 'true'], 2, 'record: unrecognized arguments: --nothing'),
    ([RECORD, '--cpu', '2', 'true'], 2, 'record: unrecognized arguments: --cpu'),
    ([RECORD, '--into'], 2, 'record: argument --into: expected one argument'),
    ([RECORD, '--into', '', 'true'], 2, 'record: argument --into: a folder\'s name is wanted'),
    ([RECORD, '--into', NOT_UTF8, 'true'], 2, 'record: argument --into: \'\\udcff\' isn\'t UTF-8'),
    ([RECORD, '--cpus', '0', 'true'], 2, WANTED % ('--cpus', 1, 64)),
    ([RECORD, '--cpus', '65', 'true'], 2, WANTED % ('--cpus', 1, 64)),
    ([RECORD, '--cpus', '01', 'true'], 2, WANTED % ('--cpus', 1, 64)),
    ([RECORD, '--cpus', '\u0663', 'true'], 2, WANTED % ('--cpus', 1, 64)),
    ([RECORD, '--huge', 'abc', 'true'], 2, WANTED % ('--huge', 1, 4096)),
    ([RECORD, '--huge', '9' * 5000, 'true'], 2, WANTED % ('--huge', 1, 4096)),
    ([RECORD, '--skip', '-1', 'true'], 2, WANTED % ('--skip', 0, 1 << 40)),
    ([RECORD, '--every', '0', 'true'], 2, WANTED % ('--every', 1, 1000000)),
    ([RECORD, '--moves', '1001', 'true'], 2, WANTED % ('--moves', 0, 1000)),
    ([RECORD, '--seed', '2147483648', 'true'], 2, WANTED % ('--seed', 0, 2147483647)),
    ([RECORD, '--threads', '65', 'true'], 2, WANTED % ('--threads', 1, 64)),
    ([RECORD, '--lines', '2', 'true'], 2, WANTED % ('--lines', 3, 1000000)),
    ([RECORD, '--labels', '1000001', 'true'], 2, WANTED % ('--labels', 1, 1000000)),
    ([RECORD, '--calls', '0', 'true'], 2, WANTED % ('--calls', 1, 100000000)),
    ([RECORD, '--head', 'huge 5', 'true'], 2, 'record: argument --head: huge is none of ' + HEADS),
    ([RECORD, '--head', 'transfer', 'true'], 2, WANTED % ('--head', 0, 4096)),
    ([RECORD, '--head', 'transfer 5\n', 'true'], 2, WANTED % ('--head', 0, 4096)),
    ([RECORD, '--head', 'cache 1', '--head', 'cache 2', 'true'], 2, 'record: argument --head: cache is named twice'),
    ([RECORD, '--release', '8000', 'true'], 2, RELEASE % '8000'),
    ([RECORD, '--release', '0/5', 'true'], 2, RELEASE % '0/5'),
    ([RECORD, '--release', '10/0', 'true'], 2, RELEASE % '10/0'),
    ([RECORD, '--release', '010/5', 'true'], 2, RELEASE % '010/5'),
    ([RECORD, '--release', '1/1048577', 'true'], 2, RELEASE % '1/1048577'),
    ([RECORD, '--release', '1/2\n', 'true'], 2, RELEASE % '1/2\n'),
    # Where it can't begin, or make again.
    ([RECORD, './none'], 127, 'record: ./none: there is no such program'),
    ([RECORD, ''], 127, 'record: \'\': there is no such program'),
    ([RECORD, './' + NOT_UTF8], 127, 'record: ./\\udcff: there is no such program'),
    ([RECORD, './a\nb'], 127, 'record: ./a\\nb: there is no such program'),
    ([RECORD, './garbage'], 127, 'record: ./garbage: Exec format error'),
    ([RECORD, '--into', 'full', 'true'], 1, 'record: full isn\'t empty'),
    ([RECORD, '--into', 'a.file', 'true'], 1, 'record: a.file can\'t be made: nothing can be written in HERE/a.file'),
    ([RECORD, '--into', '/dev/full', 'true'], 1, 'record: /dev/full can\'t be made: nothing can be written in /dev/full'),
    ([RECORD, '--into', 'dangling', 'true'], 1, 'record: dangling can\'t be made: nothing can be written in HERE/dangling'),
    (AGAIN + ['none'], 1, 'record: HERE/none/logs isn\'t there; was it a run with --keep?'),
    (AGAIN + ['no_log'], 1, 'record: HERE/no_log/logs/hello is no log of the recorder'),
    (AGAIN + ['text_log'], 1, 'record: 5.0: this is no log'),
    (AGAIN + ['short_log'], 1, 'record: 5.0: this log is cut short'),
    (AGAIN + ['odd_log'], 1, 'record: 5.0: this log has a call of no kind'),
    (AGAIN + ['empty_log'], 1, 'record: 5.0: this process had no room for a log'),
    (AGAIN + ['piped_log'], 1, 'record: 5.0: this is no log'),
    (AGAIN + ['no_logs'], 1, 'record: no call was recorded; is the program linked statically?'),
    (AGAIN + ['made'], 1, 'record: made/made.5.0.trace is there, and isn\'t replaced without --force'),
    (AGAIN + ['linked', '--force'], 1, 'record: linked/made.5.0.trace is a link and isn\'t replaced'),
    (AGAIN + ['beside'], 1, 'record: beside/made.5.0.json is there, and isn\'t replaced without --force'),
    (AGAIN + ['reported'], 1, 'record: reported/report.json is there, and isn\'t replaced without --force'),
    # What others recorded.
    ([IMPORT], 2, 'import: the following arguments are required: --into, FILE'),
    ([IMPORT, '--into', 'new'], 2, 'import: the following arguments are required: FILE'),
    ([IMPORT, 'raw.log'], 2, 'import: the following arguments are required: --into'),
    (INTO + ['--lines', 'x', 'raw.log'], 2, 'import: argument --lines: a number from 3 to 1000000 is wanted'),
    (INTO + [NOT_UTF8], 2, 'import: argument FILE: \'\\udcff\' isn\'t UTF-8'),
    (INTO + ['none.log'], 1, 'import: none.log: No such file or directory'),
    (INTO + ['full'], 1, 'import: full: Is a directory'),
    (INTO + ['/dev/zero'], 1, 'import: /dev/zero is a device'),
    (INTO + ['a.file'], 1, 'import: a.file is neither a file of heaptrack nor a log of mtrace'),
    (INTO + ['cut.gz'], 1, 'import: cut.gz: Compressed file ended before the end-of-stream marker was reached'),
    (INTO + ['bad.gz'], 1, 'import: bad.gz: Error -3 while decompressing data: invalid block type'),
    (INTO + ['negative.log'], 1, 'import: negative: line 3 isn\'t as it should be'),
    (INTO + ['place.log'], 1, 'import: place: line 3 isn\'t as it should be'),
    (INTO + ['mtrace.log'], 1, 'import: mtrace: line 2 isn\'t as it should be'),
    ([IMPORT, '--into', 'full', 'raw.log'], 1, 'import: full isn\'t empty'),
    ([IMPORT, '--into', 'a.file', 'raw.log'], 1, 'import: a.file can\'t be made: nothing can be written in HERE/a.file'),
    # The class table and the definitions.
    ([CLASSES, 'x'], 2, 'classes: unrecognized arguments: x'),
    ([CLASSES, '>full'], 1, 'classes: standard output: No space left on device'),
    ([CLASSES, '>closed'], 1, 'classes: standard output is closed'),
    ([CLASSES, '>left'], 1, 'classes: standard output: Broken pipe'),
    ([DEFINITIONS], 2, 'definitions: the following arguments are required: CRATE/FILE, NAME'),
    ([DEFINITIONS, 'alloc_rules/Law'], 2, 'definitions: the following arguments are required: NAME'),
    ([DEFINITIONS, 'alloc_rules', 'x'], 2, 'definitions: CRATE/FILE.rt or CRATE/MODULE is wanted, not \'alloc_rules\''),
    ([DEFINITIONS, '../x/y', 'x'], 2, 'definitions: CRATE/FILE.rt or CRATE/MODULE is wanted, not \'../x/y\''),
    ([DEFINITIONS, 'none/Law', 'x'], 1, 'definitions: there is no crate none'),
    ([DEFINITIONS, 'alloc_rules/None', 'x'], 1, 'definitions: alloc_rules has no file specs/None.antt'),
    ([DEFINITIONS, 'alloc_rules/Law', '('], 2, 'definitions: \'(\' is no name'),
    ([DEFINITIONS, 'alloc_rules/Law', 'A.b.c'], 2, 'definitions: \'A.b.c\' is no name'),
    ([DEFINITIONS, 'alloc_rules/Law', NOT_UTF8], 2, 'definitions: \'\\udcff\' is no name'),
    ([DEFINITIONS, 'alloc_rules/Law', 'None'], 1, 'definitions: there is no definition None in alloc_rules/specs/Law.antt'),
    ([DEFINITIONS, 'alloc_rules/Law', 'HoldsAfter.none'], 1, 'definitions: HoldsAfter has no field none'),
    ([DEFINITIONS, 'tcreplay/none.rt', 'x'], 1, 'definitions: tcreplay has no file src/none.rt'),
    ([DEFINITIONS, 'tcreplay/replay.rt', '['], 2, 'definitions: \'[\' is no name'),
    ([DEFINITIONS, 'tcreplay/replay.rt', 'x'], 1, 'definitions: there is no function x in tcreplay/src/replay.rt'),
    ([DEFINITIONS, 'alloc_rules/Law', 'HoldsAfter', '>full'], 1, 'definitions: standard output: No space left on device'),
    ([DEFINITIONS, 'alloc_rules/Law', 'HoldsAfter', '>closed'], 1, 'definitions: standard output is closed'),
    # What installs, and the tests' own words.
    ([SETUP, 'all'], 2, 'tools/setup: it has one word, --all'),
    ([SETUP, '--all', 'x'], 2, 'tools/setup: it has one word, --all'),
    ([RUN, 'no_such_case'], 2, 'tests/run: there is no such case: no_such_case'),
    ([RUN, 'sides', NOT_UTF8, 'a\nb'], 2, 'tests/run: there is no such case: a\\nb, sides, \\udcff'),
    ([RUN, '>closed'], 1, 'tests/run: standard output is closed'),
    ([COMPARE, '1', '1', '>closed'], 1, 'tests/compare: standard output is closed'),
    ([RECORD, '--help', '>full'], 1, 'record: standard output: No space left on device'),
    ([COMPARE], 2, 'tests/compare: the following arguments are required: FIRST, COUNT'),
    ([COMPARE, 'a', '1'], 2, 'tests/compare: argument FIRST: a number from 0 to 999999999 is wanted'),
    ([COMPARE, '1', '0'], 2, 'tests/compare: argument COUNT: a number from 1 to 999999999 is wanted'),
    ([COMPARE, '1', '1', 'x'], 2, 'tests/compare: argument command: invalid choice: \'x\' (choose from \'perthread\', \'numa\')'),
    (['tools/record/test', 'none'], 2, 'tools/record/test: there is no such test: \'none\''),
    (['tools/look/test', 'a\nb'], 2, 'tools/look/test: there is no such test: \'a\\nb\''),
    ([BUILD, 'x'], 2, 'tests/build: argument N: a number from 1 to 9999 is wanted'),
    ([BUILD, '0'], 2, 'tests/build: argument N: a number from 1 to 9999 is wanted'),
    ([BUILD, '--plan', '4', '5'], 2, 'tests/build: unrecognized arguments: 5'),
    ([BUILD, '--plan', '4', '>full'], 1, 'tests/build: standard output: No space left on device'),
    ([BUILD, '--plan', '4', '>closed'], 1, 'tests/build: standard output: Bad file descriptor'),
    (['bench/crate', 'none'], 1, 'bench/crate: \'none\' is none of picks, fil'),
]


def log(notes, head=b'tcrecord', places=None):
    """A log of these notes (address, size, thread, kind)."""
    places = len(notes) if places is None else places
    first = struct.pack('<8sQQQQQQQQ256s', head, places, places, 0, 0, 0, 1, 5, 4, b'/bin/made')
    return first.ljust(4096, b'\0') + b''.join(struct.pack('<QQII', *note) for note in notes)


GOOD = log([(16, 5, 0, 1)])
FILES = {
    'a.file': b'hello\n', 'garbage': b'\x7fELF', 'full/file': b'', 'raw.log': b'v 1 3\nx 1 /m\n+ 64 1 5010\n',
    'cut.gz': gzip.compress(b'v 1 3\n' * 1000)[:-9], 'bad.gz': gzip.compress(b'')[:10] + b'\xff' * 20,
    'negative.log': b'v 1 3\nx 1 /m\n+ -5 1 5010\n', 'place.log': b'v 1 3\na 64 1\n+ 1\n', 'mtrace.log': b'= Start\nhello\n= End\n',
    'no_log/logs/hello': b'', 'text_log/logs/5.0': b'hello', 'short_log/logs/5.0': log([], places=3),
    'odd_log/logs/5.0': log([(16, 5, 0, 6)]), 'empty_log/logs/5.0': bytes(5000),
    'made/logs/5.0': GOOD, 'made/made.5.0.trace': b'huge 1\n', 'linked/logs/5.0': GOOD,
    'beside/logs/5.0': GOOD, 'beside/made.5.0.json': b'{"mine": 1}', 'reported/logs/5.0': GOOD, 'reported/report.json': b'mine'}


def prepared(folder):
    for name, data in FILES.items():
        path = os.path.join(folder, name)
        os.makedirs(os.path.dirname(path), exist_ok=True)
        with open(path, 'wb') as file:
            file.write(data)
    os.chmod(folder + '/garbage', 0o755)
    os.makedirs(folder + '/piped_log/logs')
    os.makedirs(folder + '/no_logs/logs')
    os.mkfifo(folder + '/piped_log/logs/5.0')
    os.symlink('nowhere', folder + '/dangling')
    os.symlink('../a.file', folder + '/linked/made.5.0.trace')


def state(folder):
    """All names below a folder, with the bytes of its files."""
    found = {}
    for path, _, names in os.walk(folder):
        for name in [''] + names:
            one = os.path.join(path, name)
            if not os.path.isfile(one):
                found[one] = None
                continue
            with open(one, 'rb') as file:
                found[one] = file.read()
    return found
