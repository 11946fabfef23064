"""Which definitions a text of contracts or of specs names, and what these name in turn."""
import functools
import os
import re

from .ends import Stop

TOP = os.path.dirname(os.path.dirname(os.path.dirname(os.path.realpath(__file__))))
DEFINED = re.compile(r'^[ \t]*(?:abbrev pub|abbrev|pub abbrev|(?:pub )?(?:data|record)(?= +[A-Z])) +(\w+)', re.M)
USED = re.compile(r'use Rattle\.(\w+)\.specs\.([\w.]+?)(?:\.\{([^}]*)\}| as (\w+))')
NAME = re.compile(r'[^\W\d]\w*', re.ASCII)
NAMES = re.compile(r'[^\W\d]\w*(?:\.[^\W\d]\w*)?')
FIELD = re.compile(r'^[ \t]*pub (\w+) :', re.M)
COMMENTS = re.compile(r'(?m)^\s*--.*$|^\s*//.*$')
BASE = ('std', 'core')          # what these define isn't counted


def text_of(*path):
    with open(os.path.join(TOP, 'crates', *path), encoding='utf-8') as file:
        return COMMENTS.sub('', file.read())


def meant(text, crate=None, module=None):
    """What the names of a text mean: a definition, as (crate, module, name), or of an alias (crate, module)."""
    names = {}
    for of, path, few, alias in USED.findall(text):
        if of in BASE:
            continue
        if alias:
            names[alias] = (of, path)
        for name in filter(None, re.split(r'[,\s]+', few)):
            names[name] = (of, path, name)
    names.update({name: (crate, module, name) for name in DEFINED.findall(text) if crate})
    return names


@functools.cache
def module_of(crate, module):
    """The texts of a module's definitions, each with the parameters that it stands under, and what its names mean. None of
    types and constants, which code declares, and of the kit's crates."""
    path = os.path.join(crate, 'specs', module + '.antt')
    if not os.path.exists(os.path.join(TOP, 'crates', path)):
        return None
    text = text_of(path)
    bodies = {}
    for name, body in parted(text):
        bodies[name] = bodies.get(name, '') + body
    return bodies, meant(text, crate, module)


def parted(text):
    """Each definition of a text: its name, and its lines after those of the modules in which it stands."""
    name, body, modules = None, [], []
    for line in text.split('\n'):
        depth = len(line) - len(line.lstrip())
        begin = DEFINED.match(line)
        if begin or line.lstrip().startswith('module '):
            if name:
                yield name, '\n'.join(body)
            name, modules = None, [one for one in modules if one[0] < depth]
        if begin:
            name, body = begin[1], [one[1] for one in modules]
        elif line.lstrip().startswith('module '):
            modules.append((depth, line))
        if name:
            body.append(line)
    if name:
        yield name, '\n'.join(body)


def named_in(body, names):
    """The definitions that a text names."""
    for word in NAMES.findall(body):
        first, _, rest = word.partition('.')
        if len(names.get(first, ())) == 3:
            yield names[first]
        elif first in names and rest:
            yield (*names[first], rest)


def without(body, name, left_out):
    """A definition's text without its equations for these constructors."""
    lines, kept = [], True
    for line in body.split('\n'):
        if line.lstrip().startswith(name + ' ') and '=' in line and ' : ' not in line.split('=')[0]:
            kept = not left_out & set(NAMES.findall(line.split('=')[0]))
        if kept:
            lines.append(line)
    return '\n'.join(lines)


def reached(found, left_out=frozenset()):
    """All definitions that are reached from some, where those of the program leave out some constructors."""
    done, left = set(), list(found)
    while left:
        one = left.pop()
        if one in done:
            continue
        done.add(one)
        module = module_of(*one[:2])
        if module and one[2] in module[0]:
            body = module[0][one[2]]
            left += named_in(without(body, one[2], left_out) if left_out and one[0] == 'tcreplay' else body, module[1])
    return done


def contract_of(crate, file, function):
    """What the contract of a function or of a method names: of `NAME`, or of `TYPE::NAME`."""
    if not os.path.isfile(os.path.join(TOP, 'crates', crate, 'src', file)):
        raise Stop('%s has no file src/%s' % (crate, file))
    text = text_of(crate, 'src', file)
    owner, _, name = function.rpartition('::')
    found = [(of, contract) for of, contract in contracts(text, name) if owner in ('', of)]
    if not found:
        raise Stop('there is no function %s in %s/src/%s' % (function, crate, file))
    if len(found) > 1 and not owner and len({of for of, _ in found}) > 1:
        raise Stop('%s/src/%s has %s: which is meant?' % (crate, file, ' and '.join('%s::%s' % (of, name) for of, _ in found)))
    names = meant(text)
    return [one for _, contract in found for one in named_in(contract, names)]


def contracts(text, name):
    """Each function of this name: the type that has it, or none, and its head with its clauses."""
    lines, owner = text.split('\n'), ''
    for place, line in enumerate(lines):
        begin = re.match(r'(?:pub(?:\([^)]*\))? )?(?:unsafe )?(impl|trait)\b(.*)', line)
        if begin:
            owner = owner_of(begin[2])
        elif line.startswith('}'):
            owner = ''
        if re.search(r'\bfn %s\b' % name, line):
            yield owner, head_from(lines[place:])


def owner_of(head):
    """The type that an `impl` or a `trait` is of."""
    head = re.split(r'\bfor\b', re.sub(r'<[^<>]*>', '', re.sub(r'<[^<>]*>', '', head)))[-1]
    names = NAME.findall(head)
    return names[0] if names else ''


def head_from(lines):
    """The lines of a function up to its body."""
    depth, head = len(lines[0]) - len(lines[0].lstrip()), []
    for line in lines:
        head.append(line)
        plain, here = line.strip(), len(line) - len(line.lstrip()) == depth
        if here and (plain.startswith('{') or plain.endswith((';', '{')) or plain.endswith('{}')):
            break
        if plain.endswith(';'):
            break
    return '\n'.join(head)


def field_of(crate, module, name, field):
    """What a definition names, or a field of a record: with what the record's parameters and the fields that it names mean."""
    known = module_of(crate, module)
    if not known:
        raise Stop('%s has no file specs/%s.antt' % (crate, module))
    if name not in known[0]:
        raise Stop('there is no definition %s in %s/specs/%s.antt' % (name, crate, module))
    if not field:
        return [(crate, module, name)]
    head, fields = fields_in(known[0][name])
    if field not in fields:
        raise Stop('%s has no field %s' % (name, field))
    found = named_in(head + '\n'.join(fields[one] for one in fields_for(field, fields)), known[1])
    return [one for one in found if one != (crate, module, name)]


def fields_in(record):
    """The head of a record, with the modules in which it stands, and the text of each field."""
    places = list(FIELD.finditer(record))
    ends = [place.start() for place in places[1:]] + [len(record)]
    return (record[:places[0].start()] if places else record), {
        place[1]: record[place.start():end] for place, end in zip(places, ends)}


def fields_for(field, fields):
    """The fields by which one is to be read: those that it names, and of each of these the first one after it that says what it
    is."""
    wanted, left = [], [field]
    while left:
        one = left.pop()
        if one in wanted:
            continue
        wanted.append(one)
        left += [name for name in fields if name != one and re.search(r'(?<![\w.])%s\b' % name, fields[one].split(':', 1)[1])]
        if one != field:
            later = list(fields)[list(fields).index(one) + 1:]
            left += [name for name in later if re.search(r'(?<![\w.])%s\b' % one, fields[name].split(':', 1)[1])][:1]
    return wanted
