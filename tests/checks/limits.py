"""Inputs at their limits, and just above: lines, bytes, heads, picks, rows."""
from checks.program import NOTHING, ORDER, SERIAL, SMALL_TABLE, differences, run
from model import reading
from shared.heads import HEADS


def check_small(stdin, status, stdout=b'', stderr=b'', table=SMALL_TABLE):
    return differences(run(SERIAL, stdin, {b'T0.csv': table}), status, stdout, stderr)


def most_lines():
    return check_small(b'huge 4\n' * 1000000, 0, NOTHING)


def one_line_too_many():
    return check_small(b'huge 4\n' * 1000001, 4, stderr=b'tcreplay: trace line 1000001: lines\n')


def longest_trace():
    return check_small(b'x' * 67108864, 4, stderr=b'tcreplay: trace line 1: word\n')


def trace_one_byte_too_long():
    return check_small(b'x' * 67108865, 8, stderr=b'tcreplay: longer than 67108864 bytes\n')


def longest_table():
    return check_small(b'', 0, NOTHING, table=b'16,1,4\n'.ljust(65536, b'\n'))


def table_one_byte_too_long():
    return check_small(b'', 8, stderr=b'tcreplay: longer than 65536 bytes\n',
                       table=b'16,1,4\n'.ljust(65537, b'\n'))


def heads_at_the_ends_of_their_ranges():
    """The least and the greatest value of each head, as docs/FORMATS.md tells them, are read, and what is beyond them is
    refused. The model has these ends and its defaults."""
    wrong = []
    if reading.HEADS != {name: head.default for name, head in HEADS.items()}:
        wrong.append('the model has the defaults %r' % reading.HEADS)
    if reading.LIMITS != {name: (head.least, head.most) for name, head in HEADS.items()}:
        wrong.append('the model has the ends %r' % reading.LIMITS)
    for head, (least, most, _) in HEADS.items():
        for value in (least, most):
            wrong += check_small(b'%s %d\n' % (head.encode(), value), 0, NOTHING)
        for value in (least - 1, most + 1):
            wrong += check_small(b'%s %d\n' % (head.encode(), value), 4, stderr=b'tcreplay: trace line 1: number\n')
    return wrong


# Lines of a trace with one number left out, its greatest value as docs/FORMATS.md tells it, and by what a line with that is
# refused all the same, if it is: no such thread, CPU or class is there.
NUMBERS = [(b'a 0 %d 0', 999999, None), (b'a 0 0 %d', 2 ** 40, None), (b'f 0 %d', 999999, b'labelunknown'), (b'p 0 %d 0\nr 0 0', 1000000, None),
           (b'r 0 %d', 1048576, None), (b'z 0 0 0 %d', 1000000, None), (b'r %d 0', 65535, b'thread'), (b'd 0 %d', 65535, b'cpu'),
           (b'p 0 1 %d', 65535, b'cpu'), (b'z 0 0 %d 0', 65535, b'class')]


def numbers_at_the_ends_of_their_ranges():
    """The greatest value of each number of a line is read, and one more isn't."""
    wrong = []
    for line, most, why in NUMBERS:
        status, _, notes = run(SERIAL, line % most + b'\n', {b'T0.csv': SMALL_TABLE})
        expected = (0, b'') if why is None else (4, b'tcreplay: trace line 1: %s\n' % why)
        if (status, notes) != expected:
            wrong.append('%r: status %d, %r' % (line % most, status, notes))
        wrong += check_small(line % (most + 1) + b'\n', 4, stderr=b'tcreplay: trace line 1: number\n')
    return wrong


ONE_BLOCK = b'a 0 0 2097152 303104\ncalls 1\nlive 1 303104\nused 37\nresident 256\nfrag 855\n'


def check_order(order, status, stdout=b'', stderr=b''):
    files = {b'T0.csv': SMALL_TABLE, b'O': order}
    return differences(run(ORDER, b'a 0 0 300000\n', files), status, stdout, stderr)


def most_picks():
    return check_order(b'0 1000000\n' * 40, 0, ONE_BLOCK)


def too_many_picks():
    return check_order(b'0 1000000\n' * 41, 10, stderr=b'tcreplay: order line 41: picks\n')


def most_order_lines():
    return check_order(b'0\n' * 1000000, 0, ONE_BLOCK)


def one_order_line_too_many():
    return check_order(b'0\n' * 1000001, 10, stderr=b'tcreplay: order line 1000001: lines\n')


def longest_order():
    return check_order(b'x' * 67108864, 10, stderr=b'tcreplay: order line 1: number\n')


def order_one_byte_too_long():
    return check_order(b'x' * 67108865, 8, stderr=b'tcreplay: longer than 67108864 bytes\n')


def table_of(rows):
    return b''.join(b'%d,1,1\n' % (8 * row) for row in range(1, rows + 1))


def table_of_120_rows():
    return check_small(b'', 0, NOTHING, table=table_of(120))


def table_of_121_rows():
    return check_small(b'', 3, stderr=b'tcreplay: table row 121: rows\n', table=table_of(121))


CASES = [most_lines, one_line_too_many, longest_trace, trace_one_byte_too_long, longest_table,
         table_one_byte_too_long, table_of_120_rows, table_of_121_rows, heads_at_the_ends_of_their_ranges,
         numbers_at_the_ends_of_their_ranges,
         most_picks, too_many_picks, most_order_lines, one_order_line_too_many, longest_order,
         order_one_byte_too_long]
