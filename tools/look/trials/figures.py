"""The numbers of look: against a trace worked out by hand, the program's own texts, and each other."""
import base64
import gzip
import json
import os
import re
import shutil

from support import (EXAMPLES, PROGRAM, TOP, TOY, WORKED_ACTS, columns, looked, one_line, rows_of, run, same, served, worked,
                     write)

import model
from model.heap import PAGE
from model.holdings import holdings, total
from shared import program

# position, line, live blocks, live bytes, used pages, resident pages, frag, nones, coverage. Fragmentation is
# (2097152 - 16) / 2097152, (6291456 - 4194320) / 6291456, (4194304 - 16) / 4194304, (4194304 - 106512) / 4194304.
SERIES = [[1, 2, 1, 16, 1, 256, 999, 0, '1.0000'], [2, 3, 2, 4194320, 513, 768, 333, 0, '1.0000'],
          [3, 4, 1, 16, 1, 512, 999, 0, '1.0000'], [4, 5, 2, 106512, 14, 512, 974, 0, '1.0000']]
HELD = ('blocks', 'asked', 'rounding', 'slabs', 'caches', 'domains', 'transfer', 'spans', 'ends', 'under_way')


def test_each_number_of_a_worked_trace(folder):
    csv = folder + '/csv'
    served('look', looked(folder, worked(folder), '--classes', TOY, '--points', 'all'))
    series = [list(row.values()) for row in rows_of(csv + '/series.csv')]
    same('series', series, [[str(each) for each in row] for row in SERIES])
    held = {(row['position'], row['class']): [row[name] for name in HELD] for row in rows_of(csv + '/holdings.csv')}
    # 512 objects in the span: one is live, three are in the slab, 508 are free.
    same('class 0 at the peak', held['2', '0'], ['1', '10', '6', '48', '0', '0', '0', '8128', '0', '0'])
    same('large blocks at the end', held['4', 'large'], ['1', '100000', '6496', '0', '0', '0', '0', '0', '0', '0'])
    same('slabs', columns(rows_of(csv + '/slabs.csv'), 'position', 'cpu', 'class', 'bytes'),
         [[str(position), '0', '0', '48'] for position in (1, 2, 3, 4)])
    # At the end hugepage 1 has 256 - 14 unused pages, and hugepage 2 is free and backed.
    same('unused', list(rows_of(csv + '/unused.csv')[-1].values()), ['4', str(242 * PAGE), '0', '2097152'])
    hugepages = [list(row.values())[1:] for row in rows_of(csv + '/hugepages.csv') if row['position'] == '2']
    same('hugepages at the peak', hugepages[:4], [
        ['1', 'filler', '1', '1', '256', '255', '0'], ['2', 'run', '256', '1', '256', '0', '0'],
        ['3', 'run', '256', '1', '256', '0', '0'], ['4', 'free', '0', '0', '0', '256', '0']])


def test_what_a_worked_trace_costs(folder):
    csv = folder + '/csv'
    served('look', looked(folder, worked(folder), '--classes', TOY))
    cost = {row['what']: int(row['count']) for row in rows_of(csv + '/cost.csv')}
    wanted = {'acts': WORKED_ACTS, 'pops that missed': 1, 'fetches from a shard': 1, 'new spans': 1,
              'large blocks placed': 2, 'hugepages backed': 3, 'hugepages unbacked': 1}
    same('cost', {name: cost[name] for name in wanted}, wanted)
    acts = {row['act']: row['count'] for row in rows_of(csv + '/acts.csv')}
    same('acts', [acts[name] for name in ('Pop (CPU)', 'Stock (CPU)', 'Publish (names)')], ['4', '7', '3'])


def summary_of(trace):
    """What the program says of a trace, as a row of a series has it behind its line."""
    done = program.checked(program.run(PROGRAM, ['serial', '--classes', TOY, '--rows'], trace.encode()))
    lines = done.text.decode().split('\n')
    said = dict(line.split(' ', 1) for line in lines if line.split(' ')[0] in ('live', 'used', 'resident', 'frag'))
    hugepages = [line.split(' ') for line in lines if line.startswith('h ')]
    covered = sum(int(row[3]) for row in hugepages if row[5] == '256')
    nones = sum(line.startswith('a ') and line.endswith(' none') for line in lines)
    share = '%.4f' % (covered / int(said['used'])) if said['used'] != '0' else ''
    return [*said['live'].split(' '), said['used'], said['resident'], said['frag'], str(nones), share]


def test_the_course_of_a_trace_is_the_summary_of_each_of_its_prefixes(folder):
    text = model.made_trace(5, 120, 4).replace('huge 1024', 'huge 1') + 'a 0 999999 2097152\n'
    trace = write(folder + '/made.trace', text)
    served('look', looked(folder, trace, '--classes', TOY, '--points', 'all'))
    lines = text.split('\n')[:-1]
    ends = [number for number, line in enumerate(lines, 1) if line[:2] in ('a ', 'f ', 'r ', 'd ', 'z ')]
    wanted = [summary_of('\n'.join(lines[:end]) + '\n') for end in ends]
    series = [list(row.values()) for row in rows_of(folder + '/csv/series.csv')]
    same('lines', [int(row[1]) for row in series], ends)
    same('some got nothing', int(wanted[-1][5]) > 0, True)
    for number, (row, each) in enumerate(zip(series, wanted)):
        same('call %d' % (number + 1), row[2:], each)


class SumsAtEachAct(model.Listener):
    acts = 0

    def acted(self, replay, thread, call, act):
        self.acts += 1
        held, heaps = holdings(replay), [node.heap for node in replay.world.nodes]
        live = sum(row.asked + row.rounding for row in held.classes + [held.large])
        came = total(held), live, total(held) + sum(held.unused.values())
        used, resident = sum(heap.used() for heap in heaps), sum(heap.resident() for heap in heaps)
        same('act %d' % self.acts, came, (used * PAGE, replay.world.live, resident * PAGE))


def example(name, suffix):
    path = os.path.join(EXAMPLES, name + suffix)
    if not os.path.exists(path):
        return ''
    with open(path) as file:
        return file.read()


def trace_of(name, words):
    """The trace of an example, or the one that its words make."""
    if words[:1] != ['gen']:
        return example(name, '.trace')
    return model.made_trace(*(int(words[words.index(word) + 1]) for word in ('--seed', '--calls', '--threads')))


def test_what_holds_the_memory_sums_to_used_and_live_at_every_act_of_each_example():
    for name in sorted(name[:-len('.out')] for name in os.listdir(EXAMPLES) if name.endswith('.out')):
        words = example(name, '.words').split()
        table = words[words.index('--classes') + 1] if words else 'T0.csv'
        nodes = int(words[words.index('--nodes') + 1]) if '--nodes' in words else 1
        listener = SumsAtEachAct()
        model.Replay(example(table, ''), trace_of(name, words), example(name, '.order'), listener,
                     command=(words or ['serial'])[0], nodes=nodes).run()
        same('%s has acts' % name, listener.acts > 0, True)


def page(folder):
    """The data of a page, as its browser unpacks them."""
    with open(folder + '/w.html') as file:
        packed = re.search('id="packed-data">([^<]*)<', file.read())[1]
    return json.loads(gzip.decompress(base64.b64decode(packed)))


def test_the_course_of_an_order_is_by_picks(folder):
    trace, order = (os.path.join(EXAMPLES, 'threads.' + suffix) for suffix in ('trace', 'order'))
    served('look', looked(folder, trace, '--order', order, '--classes', TOY))
    last = rows_of(folder + '/csv/series.csv')[-1]
    summary = dict(re.findall(r'^(used|resident|frag) ([0-9]+)$', example('threads', '.out'), re.M))
    same('the end', [last[name] for name in ('used_pages', 'resident_pages', 'frag')],
         [summary[name] for name in ('used', 'resident', 'frag')])
    same('the page says so', 'the text of its run is the program\'s, byte for byte' in page(folder)['sources'][0], True)


def test_each_example_is_shown_as_the_run_that_its_words_ask_for(folder):
    for name, run in (('steal', 'perthread, class table T0.csv, as steal.words says'),
                      ('numa_far', 'numa with 2 memory nodes, class table T0.csv, as numa_far.words says'),
                      ('threads', 'order threads.order, class table T0.csv, as threads.order says'),
                      ('buffers', 'serial, class table T2.csv, as buffers.words says'),
                      ('first', 'serial, class table T2.csv')):
        served(name, looked(folder, os.path.join(EXAMPLES, name + '.trace')))
        said = page(folder)['subtitle'][0]
        same(name, run + ', ' in said, True)
        if name in ('steal', 'numa_far', 'threads'):
            last = rows_of(folder + '/csv/series.csv')[-1]
            summary = dict(re.findall(r'^(used|resident|frag) ([0-9]+)$', example(name, '.out'), re.M))
            same(name + ': the end', [last[each] for each in ('used_pages', 'resident_pages', 'frag')],
                 [summary[each] for each in ('used', 'resident', 'frag')])


def test_a_run_by_running_threads_is_one_of_many(folder):
    served('workers', looked(folder, os.path.join(EXAMPLES, 'workers.trace'), '--command', 'workers', '--classes', TOY))
    data = page(folder)
    same('marked', (data['one_of_many'], data['alarms'][-1].startswith('This is one run of many')), (True, True))
    same('its end alone', (len(data['runs'][0]['points']['x']), data['held'], 'acts' in data), (1, [], False))


def test_without_the_program_a_short_trace_is_looked_at_by_the_model(folder):
    """In a copy of the tools, which has no built program."""
    for part in ('tools', 'examples', 'docs/FORMATS.md', 'model'):
        os.makedirs(os.path.dirname('%s/copy/%s' % (folder, part)), exist_ok=True)
        copy = shutil.copytree if os.path.isdir(os.path.join(TOP, part)) else shutil.copy
        copy(os.path.join(TOP, part), '%s/copy/%s' % (folder, part))
    words = [folder + '/copy/tools/look/look', worked(folder), '--classes', TOY, '--into', folder + '/w.html']
    served('look', run([*words, '--csv', folder + '/csv', '--points', 'all']))
    same('series', [list(row.values()) for row in rows_of(folder + '/csv/series.csv')], [[str(each) for each in row] for row in SERIES])
    same('the page says so', page(folder)['sources'][0].startswith('The program isn\'t built here'), True)
    lines = ''.join('a 0 %d 16\n' % label for label in range(20001))
    words[1] = write(folder + '/long.trace', lines)
    one_line('a long one', run(words), 1, 'the program isn\'t built: ./tcreplay builds it', 'has 20001')


def test_a_page_of_200_points_is_small(folder):
    served('look', looked(folder, write(folder + '/made.trace', model.made_trace(7, 30000, 4))))
    same('bytes', os.path.getsize(folder + '/w.html') < 4500000, True)
    positions = [int(row['position']) for row in rows_of(folder + '/csv/series.csv')]
    same('points', (150 <= len(positions) <= 203, positions[-1]), (True, 30000))
    held = sorted({int(row['position']) for row in rows_of(folder + '/csv/unused.csv')})
    resident = {int(row['position']): int(row['resident_pages']) for row in rows_of(folder + '/csv/series.csv')}
    peak = min(place for place, pages in resident.items() if pages == max(resident.values()))
    same('moments of the model, with the peak and the end', (24 <= len(held) <= 48, peak in held, held[-1]), (True, True, 30000))


def test_a_model_without_time_is_said(folder):
    trace = write(folder + '/made.trace', model.made_trace(3, 200000, 4))
    served('look', looked(folder, trace, '--points', '60', '--seconds', '1'))
    said = [re.fullmatch(r'The model came to call ([0-9,]+) of 200,000 in [0-9]+ s: what it says ends there. '
                         r'--seconds ([0-9]+) would do.', alarm) for alarm in page(folder)['alarms']]
    found = [each for each in said if each]
    same('said', len(found), 1)
    came, seconds = (int(each.replace(',', '')) for each in found[0].groups())
    same('seconds that would do', seconds > 200000 / came, True)
    held = sorted({int(row['position']) for row in rows_of(folder + '/csv/unused.csv')})
    same('the last moment is where it came', held[-1], came)
