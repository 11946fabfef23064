"""What the sources of a crate must not name."""
import os
import re

from checks.program import TOP

CORE = ['call_steps', 'alloc_rules', 'tc_machine']
FRONT = re.compile(r'\b(Seq|Pc|slabs?|stoppers?|domains?)\b', re.IGNORECASE)
# the head `slab` of a trace, and what is said of its range
HEAD = re.compile(r'\bc\.slab\b|\bslab [:=]|\(is Slab\)|\bHead\.TheVariants\.\{[^}]*\}')
LIBRARY = 'Rattle.std.'


def core_without_front_end():
    """Calls, law and machine are over any front-end: they name no part, row or word of one."""
    wrong = []
    for crate in CORE:
        for folder in ['src', 'specs', 'proofs']:
            for path, _, names in os.walk(os.path.join(TOP, 'crates', crate, folder)):
                for name in sorted(names):
                    with open(os.path.join(path, name), encoding='utf-8') as file:
                        for number, line in enumerate(file, 1):
                            if LIBRARY not in line and FRONT.search(HEAD.sub('', line)):
                                wrong.append('%s/%s %s:%d: %s' % (crate, folder, name, number, line.strip()))
    return wrong


CASES = [core_without_front_end]
