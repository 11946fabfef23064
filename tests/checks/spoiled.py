"""Faults that are drawn: in words, and in the lines of class tables, traces, orders and journals."""

WORDS = ['', '-', '--', '--help', '-h', '--rows', '--workers', '--sample', '--nodes', '--order', '--classes', '--journal',
         '--locks', '--seed', '--classes=table', '--rows=1', 'serial', 'order', 'perthread', 'numa', 'gen', 'audit',
         'Serial', 'replay', '0', '1', '01', '+1', '9', '-1', '1.5', 'one', 'parts', 'table', 'nowhere', '.', 'x\udcff',
         '\u0663']
NUMBERS = ['', '00', '01', '-1', '+1', '-0', '1_0', '1.0', '1e1', '0x1', ' 1', '1 ', '\xb2', '\xd9\xa3', 'one', '0', '1',
           '64', '65', '255', '256', '4097', '65535', '65536', '999999', '1000000', '1000001', '1099511627776',
           '1099511627777', '18446744073709551615', '18446744073709551616', '9' * 40]
LETTERS = ['\x00', '\xff', '\xef\xbb\xbf', '\t', ' ', '  ', '\r', '\n', '\n\n', '\r\r\n', '"', ',', ';', '-', '+', '0',
           '#', '\xa0']
STARTS = ['a', 'f', 'p', 'r', 'd', 'z', 'A', 'af', 'h', 'calls', 'live', '', '#', 'cpus', 'threads', 'huge', 'events',
          'Huge', '16', '0']
HEADS = ['cpus 0', 'cpus 65', 'cpus 1', 'threads 0', 'threads 65', 'threads 1', 'huge 0', 'huge 4097', 'huge abc', 'huge',
         'huge 1 1', 'huge 18446744073709551616', 'region 1', 'region 513', 'cache 4097', 'slack 1048577', 'transfer -1',
         'slab 0', 'slab 2049', 'percpu 268435457', 'events 0', 'events 40000001', 'window 65537', 'domains 65',
         'domain 1', 'p 0 0 0', 'p 0 1000001 0', 'd 0 65536', 'z 0 0 9 1', 'z 0 0 255 1', 'r 0 1048577', 'a 0 1000000 1',
         'a 0 999999 1099511627777', 'f 0 999999', '0 0', '64', '0 1000001', 'a 0 0 none', 'f 0 0 none', 'r 0 0',
         'd 0 0 ok', 'z 0 0 0 0 busy']


def spoiled_words(draw, words):
    """Words with one that is left out, told twice, put in, moved, or other than it was; or those of a made trace."""
    words = list(words)
    place = draw.randrange(len(words))
    kind = draw.choice(['gone', 'twice', 'in', 'other', 'other', 'moved', 'first', 'made'])
    if kind == 'gone':
        del words[place]
    elif kind == 'twice':
        words += words[place:place + draw.randint(1, 2)]
    elif kind == 'in':
        words.insert(draw.randint(0, len(words)), draw.choice(WORDS))
    elif kind == 'other':
        words[place] = draw.choice(WORDS)
    elif kind == 'moved':
        words.insert(draw.randrange(len(words)), words.pop(place))
    elif kind == 'first':
        words[0] = draw.choice(['', 'serial', 'order', 'perthread', 'numa', 'gen', 'audit', 'workers', 'help'])
    else:
        words = words_of_gen(draw)
    return words


def words_of_gen(draw):
    words = ['gen', '--classes', 'table']
    for option, values in (('--seed', ['0', '2147483647', '2147483648', '1 ']), ('--calls', ['1', '30', '0', '500001', '030']),
                           ('--threads', ['1', '64', '65', '0', '4_'])):
        words += [option, draw.choice(values[:2] * 4 + values[2:])]
    return words


def spoiled_line(draw, line, comma):
    """A line with a field that is gone, told twice or another one."""
    fields = line.split(comma)
    place = draw.randrange(len(fields))
    kind = draw.choice(['number', 'number', 'number', 'near', 'gone', 'twice', 'start'])
    if kind == 'near' and fields[place].isdecimal() and fields[place].isascii():
        fields[place] = str(max(0, int(fields[place]) + draw.choice([-8, -1, 1, 8, 300000])))
    elif kind == 'gone':
        del fields[place]
    elif kind == 'twice':
        fields.insert(place, fields[place])
    elif kind == 'start':
        fields[0] = draw.choice(STARTS)
    else:
        fields[place] = draw.choice(NUMBERS)
    return comma.join(fields)


def spoiled_text(draw, text, comma=' '):
    """A text with one fault: a line changed, gone, told twice, moved or put in, a byte more, a cut, or nothing at all."""
    kind = draw.choice(['line'] * 6 + ['gone', 'twice', 'moved', 'in', 'in', 'byte', 'cut', 'empty'])
    lines = text.splitlines()
    if kind == 'empty':
        return ''
    if kind == 'cut' or not lines:
        return text[:draw.randint(0, len(text))]
    if kind == 'byte':
        at = draw.randint(0, len(text))
        return text[:at] + draw.choice(LETTERS) + text[at:]
    at = draw.randrange(len(lines))
    if kind == 'line':
        lines[at] = spoiled_line(draw, lines[at], comma)
    elif kind == 'gone':
        del lines[at]
    elif kind == 'twice':
        lines.insert(draw.randint(at, len(lines)), lines[at])
    elif kind == 'moved':
        lines.insert(draw.randrange(len(lines)), lines.pop(at))
    else:
        lines.insert(draw.choice([0, draw.randint(0, len(lines))]), draw.choice(HEADS))
    return ''.join(line + '\n' for line in lines)
