"""Running the model in this process, as a run of it would answer."""
import os

from model.program import run
from model.refusal import Refusal
from model.streams import OUTPUT, Streams, text_of

WORKERS = b'model: worker threads need ./tcreplay\n'


class Shelf(Streams):
    """Standard input, files by their names, and what was written, as bytes."""

    def __init__(self, stdin, files):
        self.stdin, self.files = stdin, files
        self.written = {}

    def input(self, limit):
        return text_of(self.stdin, limit)

    def file(self, name, limit):
        data = self.files.get(os.path.normpath(os.fsencode(name)))
        if data is None:
            raise Refusal(11, 'file fault')
        return text_of(data, limit)

    def put(self, descriptor, text):
        self.written[descriptor] = self.written.get(descriptor, b'') + text.encode('latin-1')


def run_by_the_model(words, stdin, files):
    """The status, standard output and standard error of the model. `words` are bytes, `files` maps names to bytes."""
    shelf = Shelf(stdin, files)
    status = run([os.fsdecode(word) for word in words], shelf)
    return (status,) + tuple(shelf.written.get(descriptor, b'') for descriptor in (OUTPUT, OUTPUT + 1))
