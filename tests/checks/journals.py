"""Journals that are judged: texts of runs, one with each number changed, and the limits."""
import re

from checks.program import PROGRAM, SMALL_TABLE, WRITE_FAULT, differences, run, run_with, unread_pipe
from checks.stored import stored_cases

AUDIT = [b'audit', b'--classes', b'T0.csv', b'--journal', b'J']


def check_journal(trace, journal, status, stdout=b'', stderr=b''):
    return differences(run(AUDIT, trace, {b'T0.csv': SMALL_TABLE, b'J': journal}), status, stdout, stderr)


def legal_in_its_turn(case):
    """What is wrong with a case whose own text isn't judged to be a legal journal of all its calls."""
    files = {**case.files, b'J': case.stdout}
    words = [b'audit', b'--classes', case.words[case.words.index(b'--classes') + 1], b'--journal', b'J']
    calls = [line for line in case.stdout.split(b'\n') if line.startswith(b'calls ')][0]
    return ['%s: %s' % (case.name, wrong) for wrong in differences(run(words, case.stdin, files), 0,
                                                                   calls.replace(b'calls', b'yes') + b'\n')]


def stored_texts_are_legal_journals():
    """Each whole text of serial, order and workers that a case or an example expects is a legal journal."""
    wrong = []
    for case in stored_cases():
        if (case.words[:1] and case.words[0] in (b'serial', b'order', b'workers') and case.status == 0
                and case.program == PROGRAM and b'calls ' in case.stdout and case.calls is None):
            wrong += legal_in_its_turn(case)
    return wrong


# A journal of all kinds of lines, with what comes of it where one number is one greater: for each number of a line, in
# its order, either yes or the line that fails then with its rule.
EVERY_KIND = b"""cpus 2
threads 2
huge 2
a 0 0 10
a 1 1 1099511627776
r 0 5
d 1 1
d 1 1
z 0 1 2 3
z 0 1 2 3
z 0 1 2 3
z 0 1 2 3
f 0 0
f 1 1
a 0 2 8193
"""
EVERY_LINE = [
    (b'a 0 0 2097152 16', ['1: order', '1: order', '10: address', '1: length']),
    (b'a 1 1 none', ['2: order', '2: order']),
    (b'r 0 0', ['3: order', 'yes']),
    (b'd 1 1 ok 0', ['4: order', '4: order', 'yes']),
    (b'd 1 1 busy 0', ['5: order', '5: order', 'yes']),
    (b'z 0 1 2 3 ok', ['6: order'] * 4),
    (b'z 0 1 2 3 busy 1', ['7: order'] * 4 + ['yes']),
    (b'z 0 1 2 3 overstatic 2048', ['8: order'] * 4 + ['yes']),
    (b'z 0 1 2 3 overlimit 99', ['9: order'] * 4 + ['yes']),
    (b'f 0 0 2097152', ['10: order', '10: order', '10: address']),
    (b'f 1 1 none', ['11: order', '11: order']),
    (b'a 0 2 4194304 16384', ['12: order', '12: order', 'yes', '12: length']),
    (b'calls 12', ['yes']),
    (b'live 1 16384', ['yes', 'yes']),
]


def with_one_greater(line, place):
    """A line in which the number that stands at a place among its numbers is one greater."""
    numbers = list(re.finditer(rb'(?<![0-9])[0-9]+', line))
    here = numbers[place]
    return line[:here.start()] + b'%d' % (int(here[0]) + 1) + line[here.end():]


def each_number_of_a_journal_one_greater():
    lines = [line for line, _ in EVERY_LINE]
    wrong = check_journal(EVERY_KIND, b'\n'.join(lines) + b'\n', 0, b'yes 12\n')
    for at, (line, outcomes) in enumerate(EVERY_LINE):
        for place, outcome in enumerate(outcomes):
            journal = lines[:at] + [with_one_greater(line, place)] + lines[at + 1:]
            yes = outcome == 'yes'
            wrong += check_journal(EVERY_KIND, b'\n'.join(journal) + b'\n', 0 if yes else 12,
                                   b'yes 12\n' if yes else b'',
                                   b'' if yes else b'tcreplay: audit line %s\n' % outcome.encode())
    return wrong


RELEASES = b'r 0 0\n' * 1000000


def journal_of_most_calls():
    """The end of the journal may be line 1,000,001."""
    return (check_journal(RELEASES, RELEASES, 0, b'yes 1000000\n')
            + check_journal(RELEASES, RELEASES + b'calls 1000000\n', 0, b'yes 1000000\n'))


def one_journal_line_too_many():
    return check_journal(RELEASES, RELEASES + b'r 0 0\ncalls 1000001\n', 12,
                         stderr=b'tcreplay: audit line 1000001: lines\n')


def longest_journal():
    return check_journal(b'', b'x' * 67108864, 12, stderr=b'tcreplay: audit line 1: form\n')


def journal_one_byte_too_long():
    return check_journal(b'', b'x' * 67108865, 8, stderr=b'tcreplay: longer than 67108864 bytes\n')


def closed_output_of_an_audit():
    """The line of a legal journal can't be written; of another one nothing is."""
    files = {b'J': b'a 0 0 2097152 16\n'}
    legal = run_with({'stdout': unread_pipe()}, AUDIT, b'a 0 0 10\n', files=files)
    refused = run_with({'stdout': unread_pipe()}, AUDIT, b'', files=files)
    return (differences(legal, 6, b'', WRITE_FAULT)
            + differences(refused, 12, b'', b'tcreplay: audit line 1: order\n'))


CASES = [stored_texts_are_legal_journals, each_number_of_a_journal_one_greater, journal_of_most_calls,
         one_journal_line_too_many, longest_journal, journal_one_byte_too_long, closed_output_of_an_audit]
