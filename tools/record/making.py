"""Writes traces, each with the file that says where it came from. They get their names together, when all are there."""
import contextlib
import json
import os

from shared import ends, origin

import reports
import traces

LONGEST_NAME = 100              # of a program, in the name of a trace
OWN_BEGINNING = b'{\n "trace": '


def name_of(base, made):
    """A trace's name says in which way it isn't the whole of what was recorded."""
    options = made.options
    cut = '.cut' if made.stopped else ''
    skip = '.skip%d' % options.skip if options.skip else ''
    every = '.every%d' % options.every if options.every > 1 else ''
    return base + cut + skip + every + '.trace'


def plain_name(name):
    """A program's name as the beginning of a file's name: no long one, and with no character that isn't printed."""
    return ''.join(char if char.isprintable() else '_' for char in name)[:LONGEST_NAME]


class Folder:
    """New files of a folder. Nothing that was there is replaced by one but as `ends.can_be_replaced` says."""

    def __init__(self, path, force=False):
        self.path, self.force, self.files, self.said = path, force, [], []

    def __enter__(self):
        return self

    def __exit__(self, kind, fault, trace):
        for part, _ in self.files:
            with contextlib.suppress(OSError):
                os.unlink(part)

    def add(self, name, text, beginnings=()):
        path = os.path.join(self.path, name)
        ends.can_be_replaced(path, beginnings, self.force)
        part = '%s.%d.part' % (path, os.getpid())
        self.files.append((part, path))
        with ends.named(path), open(part, 'w', encoding='utf-8', newline='') as file:
            file.write(text)

    def add_trace(self, base, recording, made, known):
        """Adds a trace and the file beside it, and answers its entry of the report."""
        name = name_of(base, made)
        self.add(name, made.text)
        beside = {'trace': name, **known, 'program': recording.program, **came_from(made)}
        self.add(origin.beside(name), json.dumps(beside, indent=1) + '\n', [OWN_BEGINNING])
        self.said.append('%s: %s' % (name, '\n    '.join(reports.lines_of(made))))
        return reports.entry(name, recording, made)

    def add_report(self, known, entries):
        self.add(reports.NAME, reports.text(self.path, known, entries), reports.BEGINNINGS)

    def place(self):
        """Gives all files their names, and tells of the traces."""
        for part, path in self.files:
            os.replace(part, path)
        self.files = []
        for text in self.said:
            ends.say(text)


def came_from(made):
    """What was left out of a trace and what was added to it, as tools/shared/origin.py tells it."""
    options = made.options
    return {'cut': {'at': made.at, 'calls_after': made.after} if made.stopped else None,
            'skip': options.skip, 'every': options.every, 'left_out': reports.by_name(made.left_out),
            'release': options.release and options.release._asdict(),
            'moves': {'drawn': made.counts['moves'], 'of_thousand': options.moves, 'seed': options.seed},
            'heads': list(traces.heads_of(made.text)), 'sha256': origin.checksum(made.text.encode())}
