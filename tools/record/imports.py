"""Reads what others recorded: heaptrack's files, raw or interpreted, and the logs of glibc's mtrace."""
import collections
import gzip
import io
import os
import re
import shutil
import stat
import subprocess
import tempfile
import zlib

import logs
from logs import ALLOCATION, FREE, KEPT, MOVED, Note
from shared import ends
from shared.ends import Stop

ZSTD, GZIP = b'\x28\xb5\x2f\xfd', b'\x1f\x8b'
ONE_THREAD = 'threads aren\'t recorded by %s: all calls are of one'
OLDEST = 'an interpreted file doesn\'t say which block of a place and size is freed: the oldest was taken'
MTRACE_CALL = re.compile(r'([-+<>!]) (0x[0-9a-f]{1,16}|\(nil\))(?: (0x[0-9a-f]{1,16}))?$')
HEXADECIMAL = re.compile('[0-9a-f]{1,16}')
MOST_BYTES = 1 << 30            # of a file, as it is and unpacked


def recording_of(path):
    """The recording that a file has, by what it begins with."""
    text = unpacked(path).decode('utf-8', 'replace')
    lines = text.split('\n')
    name = re.sub(r'\.(zst|gz|raw|log|txt)\b', '', os.path.basename(path)) or 'imported'
    if lines[0].startswith('v '):
        return heaptrack(name, lines)
    if any(line.startswith('= Start') for line in lines[:3]):
        return mtrace(name, lines)
    raise Stop('%s is neither a file of heaptrack nor a log of mtrace' % path)


def unpacked(path):
    if stat.S_ISCHR(os.stat(path).st_mode):
        raise Stop('%s is a device' % path)
    with open(path, 'rb') as file, ends.named(path):
        data = file.read(MOST_BYTES + 1)
    if data.startswith(GZIP):
        data = by_gzip(path, data)
    elif data.startswith(ZSTD):
        data = by_zstd(path, data)
    if len(data) > MOST_BYTES:
        raise Stop('%s has more than %d bytes' % (path, MOST_BYTES))
    return data


def by_gzip(path, data):
    try:
        return gzip.GzipFile(fileobj=io.BytesIO(data)).read(MOST_BYTES + 1)
    except (OSError, EOFError, zlib.error) as fault:
        raise Stop('%s: %s' % (path, fault)) from None


def by_zstd(path, data):
    if shutil.which('zstd') is None:
        raise Stop('zstd is missing: tools/setup --all installs it')
    with tempfile.TemporaryFile() as source, tempfile.TemporaryFile() as said:
        source.write(data)
        source.seek(0)
        with subprocess.Popen(['zstd', '-dc'], stdin=source, stdout=subprocess.PIPE, stderr=said) as process:
            text = process.stdout.read(MOST_BYTES + 1)
            process.stdout.close()
        said.seek(0)
        if process.returncode != 0 and len(text) <= MOST_BYTES:
            raise Stop('%s: %s' % (path, said.read().decode(errors='replace').strip() or 'zstd failed'))
    return text


def broken(name, number):
    return Stop('%s: line %d isn\'t as it should be' % (name, number))


def hexadecimal(word):
    if not HEXADECIMAL.fullmatch(word):
        raise ValueError(word)
    return int(word, 16)


def heaptrack(name, lines):
    """A raw file has the address of each block; an interpreted one only says of which place and size a block is."""
    is_raw = any(line.startswith('x ') for line in lines[:8])
    notes = []
    places = Places()
    for number, line in enumerate(lines, 1):
        fields = line.split(' ')
        try:
            if is_raw and fields[0] == '+':
                notes.append(Note(hexadecimal(fields[3]), hexadecimal(fields[1]), 0, ALLOCATION))
            elif is_raw and fields[0] == '-':
                notes.append(Note(hexadecimal(fields[1]), 0, 0, FREE))
            elif fields[0] == 'a':
                places.add(hexadecimal(fields[1]))
            elif fields[0] == '+':
                notes.append(places.come(hexadecimal(fields[1])))
            elif fields[0] == '-':
                notes.append(places.go(hexadecimal(fields[1])))
        except (ValueError, IndexError):
            raise broken(name, number) from None
    remarks = [ONE_THREAD % 'heaptrack']
    if not is_raw:
        remarks.append(OLDEST)
    return logs.Listed(name, notes, remarks=remarks)


class Places:
    """The blocks of each place and size, which stand for themselves by made addresses."""

    def __init__(self):
        self.sizes, self.live, self.blocks = [], collections.defaultdict(collections.deque), 0

    def add(self, size):
        self.sizes.append(size)

    def come(self, place):
        self.blocks += 1
        self.live[place].append(16 * self.blocks)
        return Note(16 * self.blocks, self.sizes[place], 0, ALLOCATION)

    def go(self, place):
        return Note(self.live[place].popleft(), 0, 0, FREE)


def mtrace(name, lines):
    """A log's lines say the caller, and then: + allocates, - frees, < and > are the free and the allocation of a
    realloc, and ! is one that failed."""
    notes, failures = [], 0
    for number, line in enumerate(lines, 1):
        if not line or line.startswith('='):
            continue
        call = MTRACE_CALL.search(line)
        if call is None:
            if number == len(lines):        # the program ended in the middle of a line
                continue
            raise broken(name, number)
        sign, address, size = call[1], int(call[2], 16) if call[2] != '(nil)' else 0, int(call[3] or '0', 16)
        if sign == '!':
            notes.append(Note(address, 0, 0, KEPT))
            failures += 1
        elif address == 0 and sign in '+>':
            failures += 1
        elif address:
            notes.append(Note(address, size, 0, {'+': ALLOCATION, '>': ALLOCATION, '-': FREE, '<': MOVED}[sign]))
    return logs.Listed(name, notes, failures=failures, remarks=[ONE_THREAD % 'mtrace'])
