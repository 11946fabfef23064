"""Whether a journal of answered calls is a legal one for a trace, whoever wrote it."""
import bisect

from .heap import PAGE, PAGES
from .lines import MOST_LINES, fields_of, number
from .reading import read_trace
from .refusal import Refusal, refused_answer
from .tables import read_table

MOST = 2 ** 64 - 1
# The forms of a line: each field is a word, a number, or one of several words.
FORMS = [('a', '#', '#', '#', '#'), ('a', '#', '#', 'none'), ('f', '#', '#', '#'), ('f', '#', '#', 'none'),
         ('r', '#', '#'), ('d', '#', '#', 'ok', '#'), ('d', '#', '#', 'busy', '#'), ('z', '#', '#', '#', '#', 'ok'),
         ('z', '#', '#', '#', '#', 'busy', '#'), ('z', '#', '#', '#', '#', 'overlimit', '#'),
         ('z', '#', '#', '#', '#', 'overstatic', '#')]
NAMED = {'a': 1, 'f': 1, 'r': 0, 'd': 1, 'z': 3}    # how many of a call's numbers its line names


def has_form(fields, form):
    return len(fields) == len(form) and all(number(field, 0, MOST) is not None if part == '#' else field == part
                                            for field, part in zip(fields, form))


class Journal:
    def __init__(self, table, trace):
        self.table = read_table(table)
        self.heads, calls = read_trace(trace, len(self.table))
        self.left = [[] for _ in range(self.heads['threads'])]
        for call in reversed(calls):
            self.left[call.thread].append(call)
        self.blocks = []            # the live ones, as (address, length), sorted
        self.answers = {}           # label: the address that its allocation answered, or 'none'

    def rounded(self, size):
        return next((row.size for row in self.table if row.size >= size), -(-size // PAGE) * PAGE)

    def next_call(self, fields):
        """The thread's next call, where the line's numbers are its own."""
        thread = int(fields[1])
        left = self.left[thread] if thread < len(self.left) else []
        if left and left[-1].word == fields[0]:
            named = NAMED[fields[0]]
            if list(map(int, fields[2:2 + named])) == left[-1].numbers[:named]:
                return left[-1]
        return None

    def reason(self, line, fields):
        """The first rule that a line fails, or None. A line that fails none is taken in."""
        if line > MOST_LINES:
            return 'Lines'
        if not any(has_form(fields, form) for form in FORMS):
            return 'Form'
        call = self.next_call(fields)
        if call is None:
            return 'Order'
        self.left[call.thread].pop()
        if call.word == 'a':
            return self.allocated(call, fields[3:])
        if call.word == 'f':
            return self.freed(call, fields[3])
        return None

    def allocated(self, call, answer):
        label, size = call.numbers
        if answer == ['none']:
            self.answers[label] = 'none'
            return None
        address, length = map(int, answer)
        if length != self.rounded(size):
            return 'Length'
        if address < PAGES * PAGE or address + length > (self.heads['huge'] + 1) * PAGES * PAGE:
            return 'Arena'
        place = bisect.bisect(self.blocks, (address, 0))
        if place < len(self.blocks) and self.blocks[place][0] < address + length:
            return 'Overlap'
        if place and sum(self.blocks[place - 1]) > address:
            return 'Overlap'
        self.blocks.insert(place, (address, length))
        self.answers[label] = answer[0]
        return None

    def freed(self, call, answer):
        if self.answers.get(call.numbers[0]) != answer:
            return 'Address'
        if answer != 'none':
            del self.blocks[bisect.bisect(self.blocks, (int(answer), 0))]
        return None

    def judge(self, text):
        """How many calls a legal journal tells. Another one is refused."""
        told = 0
        for fields in fields_of(text):
            if fields[0] == 'calls':
                break
            told += 1
            reason = self.reason(told, fields)
            if reason:
                raise refused_answer(told, reason)
        if any(self.left):
            raise refused_answer(told + 1, 'Missing')
        return told


def audit(table, trace, text):
    """The status, the text and the notes of a journal."""
    try:
        return 0, 'yes %d\n' % Journal(table, trace).judge(text), ''
    except Refusal as refusal:
        return refusal.status, '', refusal.note
