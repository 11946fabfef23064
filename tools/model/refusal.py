"""How a run ends that has no text."""


class Refusal(Exception):
    """A status, and what the line on standard error says of it."""

    def __init__(self, status, cause, who='tcreplay'):
        super().__init__(status, cause, who)
        self.status = status
        self.note = '%s: %s\n' % (who, cause)


def refused_row(row, reason):
    return Refusal(3, 'table row %d: %s' % (row, reason.lower()))


def refused_line(line, reason):
    return Refusal(4, 'trace line %d: %s' % (line, reason.lower()))


def refused_pick(line, reason):
    return Refusal(10, 'order line %d: %s' % (line, reason.lower()))


def refused_answer(line, reason):
    return Refusal(12, 'audit line %d: %s' % (line, reason.lower()))
