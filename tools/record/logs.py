"""What was recorded: notes of calls, in order, as record.c and what others record have them."""
import collections
import os
import stat
import struct

from shared import ends

# A call: the block's address, its size where it is an allocation, the thread, and which kind of call it was.
Note = collections.namedtuple('Note', 'address size thread kind')
UNFINISHED, ALLOCATION, ALIGNED, FREE, MOVED, KEPT = range(6)


class Bad(Exception):
    """This can't be read as a log."""


class Recording:
    """Notes of a process, and what is known of it beside them."""

    def __init__(self, program, process, parent, calls, null_frees=0, failures=0, early=0, remarks=()):
        self.program, self.process, self.parent = program, process, parent
        self.calls, self.null_frees, self.failures, self.early = calls, null_frees, failures, early
        self.kept = calls       # how many of the calls have a note
        self.remarks = list(remarks)

    def notes(self):
        """(address, size, thread, kind) of each call that was kept."""
        return iter(())


class Log(Recording):
    """A log of record.c, which says what its fields mean."""
    HEAD = struct.Struct('<8sQQQQQQQQ256s')
    HEAD_BYTES = 4096
    NOTE = struct.Struct('<QQII')

    def __init__(self, path):
        if not stat.S_ISREG(os.stat(path).st_mode):
            raise Bad('this is no log')
        with open(path, 'rb') as file, ends.named(path):
            head = file.read(self.HEAD.size)
            if not head.strip(b'\0'):
                raise Bad('this process had no room for a log')
            if len(head) < self.HEAD.size or not head.startswith(b'tcrecord'):
                raise Bad('this is no log')
            _, capacity, calls, null_frees, failures, early, _, process, parent, program = self.HEAD.unpack(head)
            name = program.split(b'\0')[0].decode(errors='replace')
            super().__init__(name, process, parent, calls, null_frees, failures, early)
            self.kept = min(capacity, calls)
            file.seek(self.HEAD_BYTES)
            self.bytes = file.read(min(self.kept * self.NOTE.size, os.fstat(file.fileno()).st_size))
        if len(self.bytes) != self.kept * self.NOTE.size:
            raise Bad('this log is cut short')

    def notes(self):
        for note in self.NOTE.iter_unpack(self.bytes):
            if note[3] > KEPT:
                raise Bad('this log has a call of no kind')
            yield note


class Listed(Recording):
    """Notes that are there as a list."""

    def __init__(self, program, notes, **known):
        super().__init__(program, None, None, len(notes), **known)
        self.listed = notes

    def notes(self):
        return iter(self.listed)
