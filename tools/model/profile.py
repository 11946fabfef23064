"""The sampled profile of a run's live blocks, and its peak."""
import collections


def profile(calls, lines, step):
    """What is printed of the profile of decided calls, each with its line."""
    sums, samples = collections.Counter(), {}       # what each thread asked for; label: length and weight of its sample
    weight, peak = 0, (0, 0)
    for number, (call, line) in enumerate(zip(calls, lines), 1):
        if call.word == 'a' and not line.endswith(' none'):
            label, size = call.numbers
            before = sums[call.thread] // step
            sums[call.thread] += size
            passed = sums[call.thread] // step - before
            if passed:
                samples[label] = int(line.split()[-1]), passed * step
                weight += passed * step
        elif call.word == 'f':
            weight -= samples.pop(call.numbers[0], (0, 0))[1]
        if weight > peak[0]:
            peak = weight, number
    rows = collections.defaultdict(list)
    for length, each in samples.values():
        rows[length].append(each)
    return ['s %d %d %d' % (length, len(rows[length]), sum(rows[length])) for length in sorted(rows)] \
        + ['peak %d %d' % peak]
