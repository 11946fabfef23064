"""What is told of the words: the formats, the manual page, the completion, and the program itself."""
import os
import re
import shutil
import subprocess

from checks.modelled import run_by_the_model
from checks.program import TOP, read, run


def synopsis(name, begin, end):
    """The lines of a command in a document of docs/, without the marks of a manual page."""
    text = read(os.path.join(TOP, 'docs'), name).decode()
    lines = text[text.index(begin):text.index(end)].split('\n')
    plain = [re.sub(r'\\f[BIR]', '', line).replace('\\-', '-').strip() for line in lines]
    return [line.split(' ', 1)[1] for line in plain if line.startswith('tcreplay ')]


def options_of(line):
    """What a command has: its required words, and each of its options."""
    parts = re.findall(r'\[([^]]+)\]|(--\S+ \S+)', line)
    required = [words.split() for _, words in parts if words]
    return required, required + [words.split() for words, _ in parts if words]


def with_values(options):
    values = {'FILE': ['T0.csv'], 'S': ['1'], 'N': ['1'], 'T': ['1'], 'one|parts': ['one', 'parts']}
    return [[option] + value for option, *names in options
            for value in ([[word] for name in names for word in values[name]] or [[]])]


def is_refused(command, options):
    """Whether these words are a faulty command line to the program, and to the model too."""
    words = [word.encode() for word in [command] + [word for option in options for word in option]]
    files = {b'T0.csv': b'16,1,4\n'}
    refusals = [runner(words, b'', files)[0] == 2 for runner in (run, run_by_the_model)]
    if len(set(refusals)) > 1:
        raise ValueError('program and model differ on %s' % words)
    return refusals[0]


def proposed(words):
    """What the completion proposes at an empty word behind these."""
    script = 'source %s; COMP_WORDS=(tcreplay %s ""); COMP_CWORD=%d; _tcreplay; echo "${COMPREPLY[@]}"' % (
        os.path.join(TOP, 'docs', 'tcreplay.bash'), ' '.join(words), len(words) + 1)
    return subprocess.run(['bash', '-c', script], stdout=subprocess.PIPE).stdout.decode().split()


def faults_of_the_page():
    """What the tools that are there find wrong with the form of the manual page."""
    page = os.path.join(TOP, 'docs', 'tcreplay.1')
    tools = [['mandoc', '-Tlint', '-Wstyle', page], ['groff', '-man', '-ww', '-Tutf8', '-z', page]]
    return [line for tool in tools if shutil.which(tool[0])
            for line in subprocess.run(tool, stdout=subprocess.PIPE, stderr=subprocess.STDOUT).stdout.decode().splitlines()]


def begun_with():
    """The words with which the script `tcreplay` builds and runs the program."""
    return re.search(r"(?m)^commands='(.*)'$", read(TOP, 'tcreplay').decode())[1].split()


def words_as_they_are_told():
    """Formats, manual page, completion and script have the same commands, the first three the same options and statuses, and
    the program takes these."""
    lines = synopsis('FORMATS.md', '## The command line', '## Class table')
    wrong = [] if synopsis('tcreplay.1', '.SH SYNOPSIS', '.SH DESCRIPTION') == lines else ['the page has another synopsis']
    told = dict([line.split(' ', 1) for line in lines])
    every = {option: values for line in lines for option, *values in options_of(line)[1]}
    if sorted(proposed([])) != sorted(told):
        wrong.append('the completion proposes %s' % proposed([]))
    if begun_with() != list(told):
        wrong.append('the script has the commands %s' % begun_with())
    for command, line in told.items():
        required, options = options_of(line)
        names = [option for option, *_ in options]
        if sorted(proposed([command])) != sorted(names):
            wrong.append('the completion proposes %s behind %s' % (proposed([command]), command))
        for option in with_values(options):
            rest = [each[:1] + with_values([each])[0][1:] for each in required if each[0] != option[0]]
            if is_refused(command, rest + [option]):
                wrong.append('%s refuses %s' % (command, ' '.join(option)))
            if option[0] in [each[0] for each in required] and not is_refused(command, rest):
                wrong.append('%s asks for no %s' % (command, option[0]))
        for name in set(every) - set(names):
            if not is_refused(command, with_values(required) + with_values([[name] + every[name]])[:1]):
                wrong.append('%s takes %s' % (command, name))
    formats, page = (read(os.path.join(TOP, 'docs'), name).decode() for name in ('FORMATS.md', 'tcreplay.1'))
    statuses = re.findall(r'(?m)^\| (\d+) \| `', formats)
    if re.findall(r'(?m)^\.B (\d+)$', page) != sorted(statuses + ['1'], key=int):
        wrong.append('the page has other statuses')
    return wrong + faults_of_the_page()


CASES = [words_as_they_are_told]
