"""The page of a run act by act, in a real browser: what each act shows, and numbers worked out by hand.

The lessons stale, fence and abort begin alike. The first call takes 17 acts, as the worked trace's does. Then thread 0
pops label 1: after Begin, Header, Test and Copy, so after act 21, it has noted a top of 3 and loaded the object on top.
"""
import base64
import os
import re
import shutil
import sys

from browsing import (SCHEMES, WIDTHS, browser, cells, lay_out, least_contrast, lines_of, log_is_empty, opened, overlaps, press,
                      show, text_of)
from support import EXAMPLES, TOP, TOY, WORKED_ACTS, one_line, run, same, served, tool, worked, write

sys.path.insert(0, os.path.dirname(os.path.dirname(os.path.realpath(__file__))))
import model
import standing
import telling

LOADED = 'top 3 objects, 1 object to take, loaded 2097200'


def page_of(folder, trace, *words):
    """The page of a trace, or of an example by its name."""
    trace = trace if '/' in trace else os.path.join(EXAMPLES, trace + '.trace')
    into = '%s/%s.html' % (folder, os.path.basename(trace))
    served('acts', tool('acts', trace, '--into', into, *words))
    return into


def go(driver, place):
    driver.execute_script('go(arguments[0])', place)


def box(driver, part):
    """The lines of a part's box."""
    return driver.find_element('css selector', '[data-part="%s"]' % part).text.split('\n')


def is_changed(driver, part):
    return 'changed' in driver.find_element('css selector', '[data-part="%s"]' % part).get_attribute('class').split()


def test_the_page_of_a_run_act_by_act(folder):
    with opened(page_of(folder, worked(folder), '--classes', TOY)) as driver:
        same('acts', driver.execute_script('return acts.length'), WORKED_ACTS)
        press(driver, 'act', 'ARROW_RIGHT', 9)
        same('act 9', lines_of(driver, 'now'), [
            'Act 9 · thread 0 · AddFetch', 'at the shard: the span joins its shard, and gives its first batch',
            'of trace line 2: a 0 0 10', 'decided: a 0 0 2097152 16'])
        # A span of one page, of which hugepage 1 is backed: its first object is label 0's.
        same('the sum', text_of(driver, 'sum'), 'After it: 0 of 4 calls ended; live 1 block of 16 B; used 1 page (8.00 KiB); '
             'resident 256 pages (2.00 MiB).')
        press(driver, 'act', 'ARROW_RIGHT', 6)
        same('the slab before the commit', lines_of(driver, 'cpus')[1].split(':')[0],
             'class 0 (16 B), top 0 of capacity 4 objects')
        press(driver, 'act', 'ARROW_RIGHT')
        same('act 16', lines_of(driver, 'now')[0], 'Act 16 · thread 0 · Stock: Commit')
        same('the slab after it', lines_of(driver, 'cpus')[1:],
             ['class 0 (16 B), top 3 of capacity 4 objects:', '2097168', '2097184', '2097200'])
        press(driver, 'act', 'ARROW_LEFT')
        same('back', (lines_of(driver, 'now')[0], lines_of(driver, 'cpus')[1].split(':')[0]),
             ('Act 15 · thread 0 · Stock: Copy', 'class 0 (16 B), top 0 of capacity 4 objects'))
        press(driver, 'act', 'END')
        same('the end', lines_of(driver, 'now')[0], 'Act 27 · thread 0 · Publish')
        press(driver, 'act', 'HOME')
        same('the start', [lines_of(driver, name) for name in ('now', 'hugepages')],
             [['The start', 'No act has come yet.'], ['all are free, and none is backed']])
        driver.execute_script('const input = part("act"); input.value = 3; input.dispatchEvent(new Event("input"))')
        same('the slider', lines_of(driver, 'now')[0], 'Act 3 · thread 0 · Pop: Header')
        same('whose', text_of(driver, 'subtitle'), 'serial, class table T0.csv; origin unknown. All numbers on this page are the '
             'model\u2019s (tools/model); the built program prints the same text of this run.')
        same('of which part', text_of(driver, 'window'), 'Acts 1 to 27, of trace lines 2 to 5 of 5: the whole run.')
        same('no lesson', driver.find_element('id', 'lesson').is_displayed(), False)


def test_picks_that_did_not_move_are_shown(folder):
    # Thread 1 frees what thread 0 hasn't allocated yet, and later thread 0 has no call left.
    trace = write(folder + '/two.trace', 'threads 2\na 0 0 10000\nf 1 0\n')
    order = write(folder + '/two.order', '1\n0 4\n')
    with opened(page_of(folder, trace, '--order', order, '--classes', TOY)) as driver:
        seen = []
        for _ in range(5):
            press(driver, 'act', 'ARROW_RIGHT')
            seen.append(lines_of(driver, 'now')[:2])
        same('the first pick', seen[0], ['Thread 1: a pick that moved nothing', 'it waits for label 0'])
        same('the second one', seen[1][0], 'Act 1 · thread 0 · New')
        same('the fifth one', seen[4], ['Thread 0: a pick that moved nothing', 'all its calls have ended'])


def test_registers_of_a_pop_that_gets_stale(folder):
    with opened(page_of(folder, 'stale')) as driver:
        go(driver, 21)
        same('before its commit', box(driver, 'thread 0'), [
            'Thread 0 at CPU 0; saw epoch 1, the CPU has 1; 1 call ended', 'line 3: a 0 1 10',
            'comes next: Pop: Commit at the CPU', 'registers of its Pop, class 0 (16 B)', 'noted top 3 objects',
            'to take 1 object', 'loaded 2097200', 'stands before Commit'])
        press(driver, 'act', 'ARROW_RIGHT')
        same('thread 1 is switched in', lines_of(driver, 'now')[0], 'Act 22 · thread 1 · Pop: In')
        came = box(driver, 'thread 0')
        same('it is stale', [came[0], came[2], came[-1]], [
            'Thread 0 at CPU 0; saw epoch 1, the CPU has 2; 1 call ended',
            'comes next: Pop: In at the CPU, as thread 1 runs there',
            '↺ stale: Commit won\u2019t come, and the sequence begins again'])
        # Thread 1 does 27 acts. Then the top is 3 again, but 2097184 is there now.
        go(driver, 48)
        same('the slab', lines_of(driver, 'cpus')[1:5],
             ['class 0 (16 B), top 3 of capacity 4 objects:', '2097168', '2097200', '2097184'])
        press(driver, 'act', 'ARROW_RIGHT')
        same('it begins again', [lines_of(driver, 'now')[0], lines_of(driver, 'now')[3]],
             ['Act 49 · thread 0 · Pop: In', '↺ Pop begins again, and drops what it noted: ' + LOADED])
        same('nothing is noted', box(driver, 'thread 0')[4:],
             ['noted top –', 'to take –', 'loaded –', 'stands before Begin'])
        go(driver, 0)
        driver.find_element('id', 'restart').click()
        same('the first restart', driver.execute_script('return document.body.dataset.act'), '49')


def test_a_fence_and_a_move_send_a_pop_back(folder):
    with browser() as driver:
        show(driver, page_of(folder, 'fence'))
        # Thread 1 does Stop and Fence. Then come two acts more of it, and thread 0, whose call is the earlier one.
        go(driver, 22)
        same('a stopped CPU', box(driver, 'thread 0')[2], 'comes next: Pop: Commit at the CPU')
        go(driver, 23)
        same('a fenced one', (box(driver, 'cpu 0')[0].split('; ')[:3], box(driver, 'thread 0')[2]), (
            ['CPU 0 thread 0 runs', 'epoch 2', 'stopped by thread 1, fenced'],
            'comes next: Pop: Back at the CPU, as a fence came since it was switched in'))
        go(driver, 26)
        same('it is sent back', (lines_of(driver, 'now')[0], lines_of(driver, 'now')[3]),
             ('Act 26 · thread 0 · Pop: Back', '↺ Pop begins again, and drops what it noted: ' + LOADED))
        show(driver, page_of(folder, 'before_fence'))
        driver.find_element('id', 'restart').click()
        same('none begins again', text_of(driver, 'jump-said'), 'no sequence begins again on this page')
        show(driver, page_of(folder, 'abort'))
        go(driver, 21)
        same('a move is due', box(driver, 'thread 0')[2], 'comes next: Pop: Leave at the CPU, as its move is due')
        press(driver, 'act', 'ARROW_RIGHT')
        same('it leaves', [lines_of(driver, 'now')[number] for number in (0, 3)],
             ['Act 22 · thread 0 · Pop: Leave', '↺ Pop begins again, and drops what it noted: ' + LOADED])
        log_is_empty(driver)


def test_links_and_jumps(folder):
    page = page_of(folder, 'stale')
    at = 'return document.body.dataset.act'
    with opened(page) as driver:
        def jump(kind, number):
            driver.execute_script('part("jump-kind").value = arguments[0]; part("jump-number").value = arguments[1]',
                                  kind, number)
            driver.find_element('css selector', '#jump button').click()
            return driver.execute_script(at), text_of(driver, 'jump-said')
        same('act 22', jump('act', '22'), ('22', ''))
        same('its link', driver.find_element('id', 'link').get_attribute('href').split('#')[1], 'act-22')
        same('in the address', driver.current_url.split('#')[1], 'act-22')
        # Line 5 is thread 1's second call. Its first one has In, five instructions and Publish: acts 22 to 28.
        same('line 5', jump('line', '5'), ('29', ''))
        # Its free is line 7. Before it come that call's 6 acts, and 7 of the free before it.
        same('label 3, which that call names: its next call', jump('label', '3'), ('42', ''))
        same('and its first one again', jump('label', '3'), ('29', ''))
        same('none', jump('label', '99'), ('29', 'no act of label 99 is on this page'))
        same('no such act', jump('act', '4711'), ('29', 'no act with number 4711 is on this page'))
        same('no number', jump('act', 'two'), ('29', 'a number is wanted'))
        driver.find_element('link text', 'a 0 1 2097184 16').click()
        same('from the lesson', lines_of(driver, 'now')[-1], 'decided: a 0 1 2097184 16')
        for address, wanted in (('act-22', '22'), ('line-5', '29'), ('label-0', '1'), ('start', '0'), ('%', '0'), ('act-62', '0')):
            driver.get('about:blank')
            show(driver, page + '#' + address)
            same('a link to ' + address, driver.execute_script(at), wanted)
        same('a link to nothing', text_of(driver, 'jump-said'), 'no act with number 62 is on this page')


def test_a_lesson_stands_beside_its_acts(folder):
    with opened(page_of(folder, 'stale')) as driver:
        same('its name', text_of(driver, 'lesson-name'), 'The lesson (stale.md)')
        same('its paragraphs', lines_of(driver, 'lesson-text')[:2], [
            'stale',
            'Thread 0 is cut off between Copy and Commit of a pop, and thread 1 runs at the same CPU before it goes on.'])
        same('its items', len(driver.find_elements('css selector', '#lesson li')), 4)
        same('its links', [each.text for each in driver.find_elements('css selector', '#lesson a')],
             ['a 0 0 2097152 16', 'a 1 2', 'f 1 3', 'a 0 1 2097184 16', 'a 0 4 2097200 16'])
        left, right = [driver.find_element('id', name).rect for name in ('lesson', 'run')]
        same('beside', left['x'] + left['width'] <= right['x'], True)


def test_each_command_is_shown_as_what_it_is(folder):
    with browser() as driver:
        show(driver, page_of(folder, 'steal'))
        same('perthread', text_of(driver, 'subtitle').split(';')[0], 'perthread, class table T0.csv, as steal.words says')
        same('no CPU', ('epoch' in text_of(driver, 'threads'), text_of(driver, 'front-name')), (False, 'Caches of threads'))
        same('a limit', box(driver, 'own 0')[0], 'Cache of thread 0 0 of 64 bytes of its limit')
        # Thread 0 got the 64 bytes of thread 1, and gave as many back.
        press(driver, 'act', 'END')
        same('both limits again', [box(driver, 'own %d' % number)[0].split(' of ')[2] for number in (0, 1)],
             ['64 bytes', '64 bytes'])
        show(driver, page_of(folder, 'numa_far'))
        same('numa', text_of(driver, 'subtitle').split(';')[0],
             'numa with 2 memory nodes, class table T0.csv, as numa_far.words says')
        press(driver, 'act', 'END')
        # Each node has two hugepages: hugepage 3 is the first of node 1, and 6291456 / 8192 is page 768.
        same('a thread', box(driver, 'thread 1')[0], 'Thread 1 at node 1; 4 calls ended')
        same('hugepage 3', box(driver, 'hugepage 3')[0], 'hugepage 3 node 1, filler; 1 page used by 1 run, 1 page backed, '
             'longest free range 255 pages')
        told = [line.split(',')[0] for line in box(driver, 'shard 1 0')]
        same('a span of node 1', (told[0], 'span at page 768' in told), ('node 1', True))
        show(driver, page_of(folder, 'steal', '--command', 'serial', '--force'))
        same('the words decide', text_of(driver, 'subtitle').split(';')[0], 'serial, class table T0.csv')
        same('at a CPU', box(driver, 'thread 0')[0], 'Thread 0 at CPU 0; saw epoch 0, the CPU has 0; 0 calls ended')
        log_is_empty(driver)


def test_a_window_into_a_long_run(folder):
    long = write(folder + '/long.trace', model.made_trace(1, 6000, 2))
    line = 4000
    with opened(page_of(folder, long, '--from', str(line))) as driver:
        told = re.fullmatch(r'Acts ([0-9,]+) to ([0-9,]+), of trace lines ([0-9,]+) to [0-9,]+ of [0-9,]+\. ([0-9,]+) acts came '
                            r'before\. The run goes on after them: a page made with --from and a later line shows more\.',
                            text_of(driver, 'window'))
        same('the window in %r' % text_of(driver, 'window'), told is not None, True)
        first, last, least, before = [int(each.replace(',', '')) for each in told.groups()]
        same('acts', (last - first + 1, before + 1), (telling.MOST_ACTS, first))
        same('lines', 0 <= least - line < 10, True)
        same('the start', lines_of(driver, 'now'), ['The start', '{:,} acts came before this page.'.format(before)])
        whose = 'the built program answers the same to the calls that are decided up to the last act'
        same('whose', whose in text_of(driver, 'subtitle'), True)
        press(driver, 'act', 'END')
        same('the last act', lines_of(driver, 'now')[0].startswith('Act {:,} · '.format(last)), True)


class Checked(telling.Window):
    """After each act all that is told must be all that stands, and the act must be the one that was said to come."""

    instructions = 0

    def acted(self, replay, thread, call, act):
        before = self.known['thread %d' % thread.number]
        same('act %d came' % self.moved, (list(before['next']), before['comes']),
             (list(act), before['comes'] and (thread.instruction or '').split(',')[0]))
        self.instructions += before['comes'] is not None
        super().acted(replay, thread, call, act)
        labels = {int(name.split(' ')[1]) for name in self.known if name.split(' ')[0] in ('name', 'block')}
        stands = standing.all_parts(self)
        for label in labels | ({call.numbers[0]} if call.word in 'af' else set()):
            stands.update((name, value) for name, value in standing.label(self.world, label).items() if value is not None)
        same('act %d, %s' % (self.moved, act), self.known, stands)


def test_what_is_told_of_each_act_is_all_that_stands():
    with open(TOY) as file:
        table = file.read()
    heads = 'cpus 2\nhuge 8\ndomains 2\nwindow 2\ntransfer 6\nslab 5\npercpu 160\ncache 1\n'
    for command, nodes in (('serial', 1), ('perthread', 1), ('numa', 2)):
        body = model.made_trace(6, 260, 3).split('\n')
        body = [line for line in body if line[:2] in ('a ', 'f ', 'r ', 'p ') or command == 'serial' and line[:2] == 'd ']
        body = [re.sub(r'^(p . \d+|d .) \d+', r'\1 1', line) for line in body]
        replay = Checked(table, heads + 'threads 3\n' + '\n'.join(body) + '\n', '', command, nodes, 60)
        try:
            replay.run()
        except telling.Enough:
            pass
        same(command + ' has acts', (len(replay.acts) > 300, replay.instructions > 300), (True, command == 'serial'))


def test_pages_of_acts_fit_each_width_in_both_schemes(folder):
    places = {'stale': (22, 49), 'steal': (30,), 'numa_far': (20,), 'profile': (40,)}
    pages = {name: page_of(folder, name) for name in places}
    with browser() as driver:
        for width in WIDTHS:
            for scheme in SCHEMES:
                for name, shown in places.items():
                    show(driver, pages[name], width, scheme=scheme)
                    for place in shown:
                        go(driver, place)
                        what = '%s at %d, %s, act %d' % (name, width, scheme, place)
                        same(what + ': what lies over another or is too wide', overlaps(driver), [])
                        contrast = least_contrast(driver)
                        same('%s: contrast of %s' % (what, contrast), contrast[0] >= 4.5, True)
        log_is_empty(driver)


def test_acts_in_grey_and_on_paper(folder):
    with opened(page_of(folder, 'stale'), scheme='dark') as driver:
        paper = 'return getComputedStyle(document.body).backgroundColor'
        same('dark', driver.execute_script(paper), 'rgb(20, 24, 29)')
        patterns = driver.execute_script('return ["filler", "run", "region"].map(kind => '
                                          'getComputedStyle(document.querySelector(".swatch." + kind)).backgroundImage)')
        same('patterns are apart', len(set(patterns)), 3)
        borders = driver.execute_script('return ["slot full", "slot free", "slot"].map(kind => '
                                        'getComputedStyle(document.body.appendChild(element("span", kind, "1"))).borderTopStyle)')
        same('objects are apart', len(set(borders)), 3)
        same('a document', base64.b64decode(driver.execute_cdp_cmd('Page.printToPDF', {})['data'])[:5], b'%PDF-')
        driver.execute_cdp_cmd('Emulation.setEmulatedMedia', {'media': 'print', 'features': [
            {'name': 'prefers-color-scheme', 'value': 'dark'}]})
        same('on paper', (driver.execute_script(paper), driver.find_element('id', 'jump').is_displayed()),
             ('rgb(255, 255, 255)', False))
        lay_out(driver, scheme='light')


def test_names_and_lessons_that_look_like_the_end_of_a_page(folder):
    trace = write(folder + '/<!--<script>.trace', 'a 0 0 10\n')
    write(folder + '/<!--<script>.md', '# </script><!--\n\n- `<img src=x onerror=alert(1)>` **bold**\n\n    a | b\n')
    with opened(page_of(folder, trace, '--classes', TOY)) as driver:
        same('the title', text_of(driver, 'title'), '<!--<script>.trace act by act')
        same('the lesson', lines_of(driver, 'lesson-text'), ['</script><!--', '<img src=x onerror=alert(1)> bold', 'a | b'])


def test_acts_of_a_checkout_that_is_not_built(folder):
    for name in ('tools', 'examples', 'docs'):
        shutil.copytree(os.path.join(TOP, name), os.path.join(folder, name), ignore=shutil.ignore_patterns('__pycache__'))
    page = folder + '/stale.html'
    served('acts', run([folder + '/tools/look/acts', folder + '/examples/stale.trace', '--into', page]))
    with opened(page) as driver:
        same('whose', text_of(driver, 'subtitle').split('. ')[1], 'All numbers on this page are the model\u2019s (tools/model); '
             'the program isn\u2019t built here, so its text wasn\u2019t compared.')
    # What the program would refuse the model refuses by the same line.
    for text, words, line in (
            ('huge abc\n', [], 'trace line 1: number'), ('a 0 0 5\nf 0 7\n', [], 'trace line 2: labelunknown'),
            ('a 0 0 5\nd 0 0\n', ['--command', 'perthread'], 'trace line 2: nothere'),
            ('events 1\na 0 0 100000\n', [], 'events limit 1'),
            ('a 0 0 5\n', ['--order', folder + '/bad'], 'order line 1: thread'),
            ('a 0 0 5\n', ['--classes', folder + '/bad'], 'table row 1: fields')):
        write(folder + '/bad', '7\n')
        trace = write(folder + '/bad.trace', text)
        one_line('acts, not built, %r' % text, run([folder + '/tools/look/acts', trace, *words, '--into', folder + '/b.html']), 1,
                 'acts: tcreplay: ' + line)
    same('no page', os.path.exists(folder + '/b.html'), False)


def test_a_run_without_a_block(folder):
    trace = write(folder + '/none.trace', 'huge 1\na 0 0 4194304\nf 0 0\nr 0 5\n')
    with opened(page_of(folder, trace, '--classes', TOY)) as driver:
        press(driver, 'act', 'END')
        same('null', cells(driver, '#names tbody tr'), [['0', 'null, taken', '–', '–']])
        same('decided', lines_of(driver, 'decided'), ['a 0 0 none', 'f 0 0 none', 'r 0 0'])
