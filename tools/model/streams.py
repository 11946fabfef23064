"""Standard input, output and error, and files, and how they fail."""
import os

from .refusal import Refusal

PIECE = 1 << 20
OUTPUT, NOTES = 1, 2


def read_most(descriptor, limit):
    """All bytes, or one more than the limit if there are more."""
    pieces, room = [], limit + 1
    while room:
        piece = os.read(descriptor, min(room, PIECE))
        if not piece:
            break
        pieces.append(piece)
        room -= len(piece)
    return b''.join(pieces)


def text_of(data, limit):
    """Each byte is a letter."""
    if len(data) > limit:
        raise Refusal(8, 'longer than %d bytes' % limit)
    return data.decode('latin-1')


class Streams:
    """Those of this process, with the descriptor of the trace."""

    def __init__(self, trace):
        self.trace = trace

    def input(self, limit):
        try:
            data = read_most(self.trace, limit)
        except OSError:
            raise Refusal(5, 'read fault') from None
        return text_of(data, limit)

    def file(self, name, limit):
        try:
            descriptor = os.open(name, os.O_RDONLY)
            try:
                data = read_most(descriptor, limit)
            finally:
                os.close(descriptor)
        except OSError:
            raise Refusal(11, 'file fault') from None
        return text_of(data, limit)

    def put(self, descriptor, text):
        """Writes all of it, if it can."""
        rest = memoryview(text.encode('latin-1'))
        try:
            while rest:
                rest = rest[os.write(descriptor, rest):]
        except OSError:
            raise Refusal(6, 'write fault') from None
