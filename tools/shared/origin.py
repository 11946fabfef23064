"""Where a trace came from, as the file beside it says: NAME.json for NAME.trace, which tools/record makes with each trace."""
import hashlib
import json
import os

from . import ends, wording

UNKNOWN = 'origin unknown'
LONGEST = 120                   # characters of the words of a program that are told
OF_EVERY = '--every'            # what is left out by this option is told as one block of so many


def beside(trace):
    """The name of the file beside a trace that says where it came from."""
    return (trace[:-len('.trace')] if trace.endswith('.trace') else trace) + '.json'


def checksum(data):
    return hashlib.sha256(data).hexdigest()


def told(trace):
    """One line of plain text for the top of a page on this trace. It never fails."""
    try:
        known = json.loads(ends.read_bytes(beside(trace)))
        line = '; '.join(parts(known))
        if known['sha256'] != checksum(ends.read_bytes(trace)):
            line += '; changed since'
        return line
    except (OSError, ValueError, LookupError, TypeError, AttributeError, RecursionError):
        return UNKNOWN


def parts(known):
    """What the file beside a trace says, each thing as a few words."""
    said = [source(known)]
    if known['cut']:
        said.append('cut at %s, %s calls came after' % (plain(known['cut']['at']), grouped(known['cut']['calls_after'])))
    if known['skip']:
        said.append('begins after %s calls' % grouped(known['skip']))
    if known['every'] > 1:
        said.append('one block of %s' % grouped(known['every']))
    left_out = sum(int(count) for what, count in known['left_out'].items() if OF_EVERY not in what)
    if left_out:
        said.append('%s calls left out' % grouped(left_out))
    if known['release']:
        said.append('a release of %s pages added after each %s lines of calls'
                    % (grouped(known['release']['pages']), grouped(known['release']['lines'])))
    return said + ['moves drawn' if known['moves']['drawn'] else 'no moves drawn']


def source(known):
    if known['by'] == 'import':
        return 'imported from %s' % plain(' '.join(known['words']))
    words = ' '.join(known['words']) if known['words'] else known['program']
    own = os.path.basename(known['program'])
    named = '' if not known['words'] or os.path.basename(known['words'][0]) == own else ' (%s)' % plain(own)
    return 'recorded from %s, process %d.%d%s' % (plain(words), known['process'], known['log'], named)


def plain(text):
    """A text as a part of a line: no control characters, none that UTF-8 lacks, and not too long."""
    line = wording.shown(' '.join(text.split()))
    return line if len(line) <= LONGEST else line[:LONGEST - 2].rstrip() + ' ..'


def grouped(number):
    return '{:,}'.format(int(number))
