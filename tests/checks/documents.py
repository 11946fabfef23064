"""Whether what is named outside of the crates is there: in documents crates, files, clauses, wrong bodies, tests and cases,
and in measured programs what they import."""
import functools
import os
import re
import subprocess

from checks.program import PROGRAM, SECONDS, TOP
from shared import meanings

DOCUMENTS = ['README.md', 'examples/README.md', 'tools/look/README.md', 'tools/record/README.md'] + ['docs/%s.md' % name for name in (
    'ARCHITECTURE', 'CHANGING', 'DECISIONS', 'FORMATS', 'MODEL', 'PROOFS', 'PROVED', 'ROADMAP', 'WORDS')]
FOLDERS = ('bench', 'docs', 'examples', 'tests', 'tools')
LINES = {'README.md': 170, 'docs/MODEL.md': 150}
TABLE = '| Claim | Clause | Guarded by |'
FIELDS = '| What holds behind every number of picks | Field | Guarded by |'       # of the law over any front-end, too
NAMED = re.compile(r'\b(?:fn|struct|enum|trait|type|const|ensures|requires|data|record|pub|abbrev)\b(?=\s+(\w+))')
WORD = re.compile(r'[^\W\d]\w*')
QUOTED = re.compile(r'`([^`\n]+)`')
LINK = re.compile(r'(?:\]\(|src=")(?!http)([^)"]+)[)"]')


def text_of(*path):
    with open(os.path.join(TOP, *path), encoding='utf-8', errors='replace') as file:
        return file.read()


def files_below(*path):
    for folder, folders, names in os.walk(os.path.join(TOP, *path)):
        folders[:] = [name for name in folders if name != 'out']
        yield from (os.path.join(folder, name) for name in names)


@functools.cache
def crates():
    return [line.split(':')[0].split()[0] for line in text_of('crates.txt').splitlines() if ':' in line.split('#')[0]]


@functools.cache
def names_of(crate):
    """What a crate gives a name to: functions, types, clauses, definitions with their fields, and laws."""
    return {name for part in ('src', 'specs', 'proofs') for file in files_below('crates', crate, part)
            for name in NAMED.findall(text_of(file))}


@functools.cache
def tests_of(crate):
    return {name for file in files_below('crates', crate, 'src')
            for name in re.findall(r'#\[test\]\s*(?:pub )?fn (\w+)', text_of(file))}


@functools.cache
def edits_of(crate):
    return {os.path.basename(file)[:-5] for file in files_below('crates', crate, 'must-fail')}


@functools.cache
def cases():
    stored = {name for file in files_below('tests', 'rows') for name in re.findall(r'(?m)^case (\S+)', text_of(file))}
    return stored | {name for file in files_below('tests', 'checks') if file.endswith('.py')
                     for name in re.findall(r'(?m)^def (\w+)\(\)', text_of(file))}


KINDS = {'case': lambda crate: cases(), 'test': tests_of, 'edit': edits_of, 'clause': names_of,
         'field': lambda crate: names_of(crate) | names_of('alloc_rules')}


def missing(kind, quoted, crate):
    """Which of some names, each of a crate or CRATE/NAME, aren't what the kind says."""
    wrong = []
    for name in quoted:
        of, _, plain = name.rpartition('/')
        if not set(WORD.findall(plain)) <= KINDS[kind](of or crate):
            wrong.append('%s: there is no %s %s' % (crate, kind, name))
    return wrong


def what_is_proved():
    """Of each row of the tables of docs/PROVED.md the names, in the crate of its section."""
    wrong, crate, told, kind_of_clause = [], None, [], None
    for line in text_of('docs', 'PROVED.md').splitlines():
        if line.startswith('### '):
            crate = line[4:]
            told.append(crate)
        if not line.startswith('|'):
            kind_of_clause = None
        for kind, names in re.findall(r'\b(test|case) ((?:`[^`]+`(?:, )?)+)', line):
            wrong += missing(kind, QUOTED.findall(names), crate)
        if kind_of_clause and not line.startswith('|--'):
            clause, guards = (line + ' ').split(' | ')[1:3]
            wrong += missing(kind_of_clause, QUOTED.findall(clause), crate)
            plain = [part for part in guards.split(';') if not part.strip().startswith(('test ', 'case '))]
            wrong += missing('edit', [name for part in plain for name in QUOTED.findall(part)], crate)
        kind_of_clause = {TABLE: 'clause', FIELDS: 'field'}.get(line, kind_of_clause)
    return wrong + ['docs/PROVED.md has no section %s' % name for name in set(crates()) - set(told)]


def paths_in(document):
    """The files that a document names and that aren't there, of the repository or of a crate that is named in the same
    paragraph or row, and those that it shows or leads to, from its own folder on."""
    home = os.path.dirname(os.path.join(TOP, document))
    wrong = ['%s shows %s, which is not there' % (document, path) for path in LINK.findall(text_of(document))
             if not os.path.exists(os.path.join(home, path))]
    for part in re.split(r'\n\n|\n(?=\||- )', text_of(document)):
        quoted = QUOTED.findall(part)
        near = [name.split('/')[0] for name in quoted if name.split('/')[0] in crates()]
        for name in quoted + re.findall(r'\bdocs/[A-Z]+\.md', part):
            path = name.split()[0]
            folder = path.split('/')[0]
            if re.search('[*]|NAME|MODULE|FILE', path) or '/' not in path.rstrip('/'):
                continue
            if folder in FOLDERS or folder in ('crates', '.ci'):
                there = os.path.exists(os.path.join(TOP, path))
            elif folder in ('src', 'specs', 'proofs', 'must-fail'):
                there = any(os.path.exists(os.path.join(TOP, 'crates', crate, path)) for crate in near or crates())
            else:
                there = folder not in crates() or '.' not in path or os.path.exists(os.path.join(TOP, 'crates', path))
            run = re.fullmatch(r'tests/run ([a-z]\w*)', name)
            if not there or (run and run[1] not in cases() and not run[1].startswith('example_')):
                wrong.append('%s names %s, which is not there' % (document, name))
    return wrong


def words_of_the_house():
    """Of each word of docs/WORDS.md where it stands: a document, a crate, or a file of a crate's code or definitions."""
    wrong = []
    for line in text_of('docs', 'WORDS.md').splitlines():
        cells = line.split(' | ')
        for place in re.findall(r'docs/\w+\.md|`\w+`(?: [\w.]+)?', cells[-1]) if len(cells) == 3 else []:
            crate, _, name = place.replace('`', '').partition(' ')
            paths = ['src/' + name] if '.' in name else ['specs/%s.antt' % name] if name else ['']
            path = crate if crate.startswith('docs/') else os.path.join('crates', crate, *paths)
            if not os.path.exists(os.path.join(TOP, path)):
                wrong.append('docs/WORDS.md: %s is not there' % place)
        if len(cells) == 3 and not cells[2].strip(' |'):
            wrong.append('docs/WORDS.md does not say where: %s' % cells[0])
    return wrong


def path_of_definitions():
    """What docs/MODEL.md names and no crate has: a definition, a type, a function or a file of definitions."""
    known = {name for crate in crates() for name in names_of(crate)} | set(crates())
    known |= {os.path.basename(file)[:-5] for crate in crates() for file in files_below('crates', crate, 'specs')}
    kit = {low for line in text_of('crates.txt').splitlines() for low in line.partition(':')[2].split()} - set(crates())
    plain = [name for name in QUOTED.findall(text_of('docs', 'MODEL.md')) if re.fullmatch(r'\w+', name)]
    return ['docs/MODEL.md names %s, which is not there' % name for name in plain if name not in known | kit]


def names_that_the_documents_name():
    """Clauses, wrong bodies, tests, cases and files that documents name are in the tree, each crate has a row in the
    architecture, and README and the path through the definitions are as short as they say."""
    wrong = what_is_proved() + words_of_the_house() + path_of_definitions()
    for document in DOCUMENTS:
        wrong += paths_in(document)
    rows = set(re.findall(r'(?m)^\| `(\w+)` \|', text_of('docs', 'ARCHITECTURE.md')))
    wrong += ['docs/ARCHITECTURE.md has no row for %s' % name for name in set(crates()) - rows]
    return wrong + ['%s has more than %d lines' % (name, most) for name, most in LINES.items()
                    if text_of(name).count('\n') >= most]


def what_measured_programs_import():
    """The programs of bench/crate import what the crates that they measure have. Only bench/crate itself proves them."""
    wrong = []
    for path in files_below('bench', 'programs'):
        text = text_of(path)
        imports = re.findall(r'(?m)^use (\w+)::\{?([\w, ]+)\}?;', text)
        imports += re.findall(r'use Rattle\.(\w+)\.(?:specs|proofs)\.[\w.]+\.\{([^}]*)\}', text)
        wrong += ['%s imports %s from %s, which has none' % (os.path.relpath(path, TOP), name, crate)
                  for crate, names in imports if crate in crates()
                  for name in WORD.findall(re.sub(r'-\S+', '', names)) if name not in names_of(crate)]
    return wrong


def shell(command, folder):
    done = subprocess.run(['sh', '-c', re.sub(r'\S*\./tcreplay', PROGRAM, command)], cwd=os.path.join(TOP, folder),
                          stdout=subprocess.PIPE, stderr=subprocess.PIPE, text=True, timeout=SECONDS)
    return done.returncode, done.stdout, done.stderr


def readme_as_it_runs():
    """The commands of README.md: those of its two ways in print the text that stands there, and so do the model and the
    program for each command of its table but those that threads make."""
    text = text_of('README.md')
    wrong = []
    for command in re.findall(r'(?m)^    (\./(?:model|tcreplay) .*)$', text):
        status, out, told = shell(command, '.')
        if (status, told) != (0, '') or '\n    '.join([''] + out.splitlines()) + '\n\n' not in text:
            wrong.append('%s: status %d, %r' % (command, status, out + told))
    for command in re.findall(r'(?m)^\|.*\| `(\.\./tcreplay .*)` \|$', text):
        answer = shell(command, 'examples')
        if answer[0] != (12 if ' audit ' in command else 0):
            wrong.append('%s: status %d, %r' % (command, *answer[::2]))
        if ' workers ' not in command and shell(command.replace('../tcreplay', '../model'), 'examples') != answer:
            wrong.append('%s: the model answers otherwise' % command)
    return wrong


def definitions_to_read():
    """tools/definitions lists what a contract, a method, a command and a line of the law rest on: of the program's contract the
    run on disjoint blocks and the law, of an object's one place the books, parts and locals, and of each command its own machine."""
    def told(*words):
        return subprocess.run([os.path.join(TOP, 'tools', 'definitions'), *words], stdout=subprocess.PIPE, text=True).stdout

    wrong = []
    for words, some, others in (
            (('tcreplay/replay.rt', 'replay_alone'), {'IsBlockRun', 'HoldsAfter', 'strip_bom'}, {'acts_keep'}),
            (('alloc_rules/Law', 'HoldsAfter.object_is_once'), {'stock_of', 'loose', 'parts_of', 'FrontRules'}, {'IsBlockRun'}),
            (('page_heap/heap.rt', 'new_run'), {'none_fits'}, {'IsBlockRun'}),
            (('tcreplay', 'serial'), {'per_cpu', 'HasTried'}, {'per_thread', 'per_node', 'HasGenerated', 'HasAudited'}),
            (('tcreplay', 'perthread'), {'per_thread', 'HasTried'}, {'per_cpu', 'per_node', 'HasGenerated', 'HasAudited'}),
            (('tcreplay', 'numa'), {'per_node', 'HasTried'}, {'per_cpu', 'per_thread', 'HasGenerated', 'HasAudited'}),
            (('tcreplay', 'gen'), {'per_cpu', 'HasGenerated'}, {'per_thread', 'per_node', 'HasTried', 'HasAudited'}),
            (('tcreplay', 'audit'), {'HasAudited'}, {'per_cpu', 'per_thread', 'per_node', 'HasTried', 'HasGenerated'}),
            (('tc_units/Units', 'page_bytes'), {'page_bytes', '1 definitions in 1 files'}, {'Lib'})):
        text = told(*words)
        wrong += ['%s: %s is missing' % (words, name) for name in some if not re.search(r'\b%s\b' % name, text)]
        wrong += ['%s: %s is there' % (words, name) for name in others if re.search(r'\b%s\b' % name, text)]
    return wrong


def definitions_of_every_function():
    """tools/definitions answers for each public function and method of four crates."""
    wrong, count = [], 0
    for crate in ('tcreplay', 'tc_machine', 'page_heap', 'name_table'):
        for file in sorted(os.listdir(os.path.join(TOP, 'crates', crate, 'src'))):
            for name in sorted(set(re.findall(r'\bpub fn (\w+)', meanings.text_of(crate, 'src', file)))):
                owners = {owner for owner, _ in meanings.contracts(meanings.text_of(crate, 'src', file), name)}
                for owner in owners:
                    meanings.reached(meanings.contract_of(crate, file, '%s::%s' % (owner, name) if owner else name))
                    count += 1
                wrong += [] if owners else ['%s/%s %s has no contract' % (crate, file, name)]
    return wrong or ([] if count > 60 else ['only %d functions' % count])


def headline_sentence_by_sentence():
    """docs/MODEL.md has each sentence of README's headline, with clauses that are there and as many definitions as it says."""
    quoted = ' '.join(line[2:] for line in text_of('README.md').split('\n') if line.startswith('> '))
    said = re.split(r'(?<=\.) (?=[A-Z])', quoted)
    part = text_of('docs', 'MODEL.md').partition('\n## Sentence by sentence\n')[2].partition('\n## ')[0]
    rows = re.findall(r'^\| (.+) \| (`.+`) \| (\d+) \|$', part, re.M)
    wrong = ['README\'s headline has %d sentences, and docs/MODEL.md %d' % (len(said), len(rows))] if len(said) != len(rows) else []
    wrong += ['docs/MODEL.md has %r for %r' % (row[0], one) for one, row in zip(said, rows) if not one.startswith(row[0])]
    for number, row in enumerate(rows, 1):
        answer = shell('tools/definitions headline %d' % number, '.')
        if not answer[1].split('\n')[-2].startswith('%s definitions in' % row[2]):
            wrong.append('sentence %d: docs/MODEL.md says %s, and the tool %r' % (number, row[2], answer[1].split('\n')[-2]))
    return wrong


CASES = [names_that_the_documents_name, what_measured_programs_import, readme_as_it_runs, definitions_to_read,
         definitions_of_every_function, headline_sentence_by_sentence]
