"""Tells of the traces that were made: on standard error, and in FOLDER/report.json."""
import json
import os

from shared import ends
from traces import grouped

NAME = 'report.json'
BEGINNINGS = [b'{\n "words": ', b'{\n "processes": ']


def lines_of(made):
    """The report on one trace, as lines."""
    said = [', '.join('%s %s' % (name, grouped(count)) for name, count in made.counts.items())]
    said += [what if count is None else '%s %s' % (grouped(count), what) for count, what in made.remarks]
    said += ['%s left out: %s' % (grouped(count), what) for count, what in made.left_out]
    if made.stopped:
        said.append('stopped: %s; %s calls came after' % (made.stopped, grouped(made.after)))
    return said


def entry(name, recording, made):
    """The report on one trace, for a program to read."""
    return {'trace': name, 'program': recording.program, 'process': recording.process, 'parent': recording.parent,
            **made.counts, 'peak_live_bytes': made.peak_bytes, 'left_out': by_name(made.left_out),
            'remarks': by_name(made.remarks), 'stopped': made.stopped, 'calls_after': made.after}


def by_name(counted):
    return {what: count for count, what in counted}


def known_of(folder):
    """What an older report of the folder knows of the run."""
    try:
        older = json.loads(ends.read_bytes(os.path.join(folder, NAME)))
        return {name: older[name] for name in ('words', 'begun', 'seconds', 'status') if name in older}
    except (OSError, ValueError, TypeError, RecursionError):
        return {}


def text(folder, known, entries):
    """The report. What isn't known of the run is as an older report of the folder has it."""
    return json.dumps({**known_of(folder), **known, 'processes': entries}, indent=1) + '\n'
