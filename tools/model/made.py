"""Traces that are made from a seed."""


def draws(seed):
    while True:
        seed = (seed * 1103515245 + 12345) % 2147483648
        yield seed // 65536


def made_trace(seed, calls, threads):
    """The trace of a seed. Each line takes its draws in the order in which they stand here."""
    draw = draws(seed)
    cpus = (threads + 1) // 2
    lines, live, label = ['cpus %d' % cpus, 'threads %d' % threads, 'huge 1024'], [], 0
    for number in range(calls):
        thread = next(draw) % threads
        kind = next(draw) % 100
        if number % 10 == 9:
            before = next(draw) % 8 + 1
            lines.append('p %d %d %d' % (thread, before, next(draw) % cpus))
        if kind < 45 and live:
            place = next(draw) % len(live)
            lines.append('f %d %d' % (thread, live[place]))
            live[place] = live[-1]
            live.pop()
        elif kind == 98:
            lines.append('d %d %d' % (thread, next(draw) % cpus))
        elif kind == 99:
            lines.append('r %d %d' % (thread, next(draw) % 1000))
        else:
            lines.append('a %d %d %d' % (thread, label, made_size(draw)))
            live.append(label)
            label += 1
    return ''.join(line + '\n' for line in lines)


def made_size(draw):
    kind = next(draw) % 16
    if kind < 12:
        return next(draw) % 1024 + 1
    return next(draw) * (16 if kind == 15 else 1)
