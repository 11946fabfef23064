"""The pages in a real browser: no error in its log, sliders and keys that work, and numbers worked out by hand."""
import base64
import json
import os
import re
import time

from browsing import (SCHEMES, WIDTHS, browser, cells, lay_out, least_contrast, lines_of, log_is_empty, opened, overlaps, press,
                      show, text_of)
from support import EXAMPLES, TOY, same, served, tool, worked, write

from shared import pages

def looked_at(folder, *words):
    """The page of the worked trace, at each of its calls."""
    served('look', tool('look', worked(folder), '--classes', TOY, '--points', 'all', '--into', folder + '/w.html', *words))
    return folder + '/w.html'


def drawn(driver, name):
    """The x and y of a curve, as it is drawn, and the form of its line."""
    return driver.execute_script('const curve = part("course").data.find(each => each.name === arguments[0]);'
                                 'return [[...curve.x], [...curve.y], curve.line.shape, curve.line.dash]', name)


def values(driver):
    """What the names of the curves say at the moment that is pointed at."""
    return driver.execute_script('return Object.fromEntries([...part("values-of").children]'
                                 '.map(each => [each.children[1].textContent, each.lastChild.textContent]))')


def test_the_page_of_a_run_over_time(folder):
    with opened(looked_at(folder)) as driver:
        # 768 pages are 6 MiB; 4194320 bytes are 4.000015 MiB; 513 pages are 4.0078 MiB.
        same('the first line', text_of(driver, 'first'),
             'Resident memory is 6.00 MiB at call 2, trace line 3, the greatest of 4 prefixes (program). '
             'Then 4.00 MiB are live, 4.01 MiB are used, and fragmentation is 33.3 %.')
        # As it is drawn: resident, in MiB, at the start and at the line of each call, in steps.
        same('resident', drawn(driver, 'resident'), [[0, 2, 3, 4, 5], [0, 2, 6, 4, 4], 'hv', 'solid'])
        same('no alarm', text_of(driver, 'alarms'), '')
        same('where it came from', lines_of(driver, 'subtitle')[1], 'origin unknown')
        same('the end', lines_of(driver, 'cards')[6:9], ['4.00 MiB', 'resident at the end', 'program, after all 4 calls'])
        # 27 acts, 4 calls.
        same('the cost', lines_of(driver, 'cards')[-3:], ['6.8 acts', 'a call', 'model, all 4 calls'])


def test_one_axis_one_zoom_and_one_hover_line_for_all_curves(folder):
    with opened(looked_at(folder)) as driver:
        same('axes', driver.execute_script('return [...new Set(part("course").data.map(each => each.xaxis || "x"))]'), ['x'])
        same('zoom', driver.execute_script('const {xaxis, yaxis, yaxis2, yaxis4} = part("course").layout;'
                                           'return [xaxis, yaxis, yaxis2, yaxis4].map(axis => Boolean(axis.fixedrange))'),
             [False, True, True, True])
        # The slider's moment is the peak's, at line 3, and is marked over all curves.
        same('the mark', driver.execute_script('const [line] = part("course").layout.shapes; return [line.x0, line.x1, line.yref]'),
             [3, 3, 'paper'])
        same('values at the mark', [values(driver)[name] for name in ('resident', 'used', 'live', 'fragmentation', 'live: asked for')],
             ['6.00 MiB', '4.01 MiB', '4.00 MiB', '33.30 %', '4.00 MiB'])
        press(driver, 'moment', 'ARROW_RIGHT')
        same('the mark goes along', driver.execute_script('return part("course").layout.shapes[0].x0'), 4)
        same('all sliders do', driver.execute_script('return ["map-slider", "held-slider"].map(name => part(name).value)'), ['2', '2'])
        driver.execute_script(
            'const plot = part("course"), box = plot.getBoundingClientRect(), axis = plot._fullLayout.xaxis;'
            'plot.dispatchEvent(new PointerEvent("pointermove", {bubbles: true, clientX: box.left + axis._offset + axis.l2p(2), '
            'clientY: box.top + 50}))')
        # At line 2 a page of 256 is used, and of it a block of 16 bytes.
        same('where', text_of(driver, 'values-at'), 'line of the trace 2')
        same('values where one points', [values(driver)[name] for name in ('resident', 'used', 'requests that got nothing')],
             ['2.00 MiB', '0.01 MiB', '0'])
        same('a line over all', driver.execute_script('const line = document.querySelector(".hover-line");'
                                                      'return line.offsetHeight === part("course").clientHeight'), True)
        driver.execute_script('[...part("values-of").children].find(each => each.children[1].textContent === "used").click()')
        same('a curve that is hidden', driver.execute_script('return part("course").data.find(each => each.name === "used").visible'), False)


def test_the_map_of_hugepages(folder):
    with opened(looked_at(folder)) as driver:
        same('at the peak', text_of(driver, 'map-text').split('Hugepages: ')[1],
             '1 filler (0 of them not wholly backed), 2 run, 0 region, 0 free and backed, 61 free and not backed.')
        press(driver, 'map-slider', 'ARROW_RIGHT')
        same('after the free', text_of(driver, 'map-text').split('Hugepages: ')[1],
             '1 filler (0 of them not wholly backed), 0 run, 0 region, 1 free and backed, 62 free and not backed.')
        driver.execute_script(
            'const box = part("map").getBoundingClientRect();'
            'part("map").dispatchEvent(new PointerEvent("pointermove", {clientX: box.left + 1.5 * drawn.side, clientY: box.top + 3}))')
        same('hugepage 2', text_of(driver, 'map-at'),
             'hugepage 2: free; 0 of 256 pages used, by 0 runs; 256 pages backed; longest free range 256 pages')
        # Of 64 hugepages three are ever used.
        same('the others', '61 at the end of the arena' in text_of(driver, 'map-legend'), True)


def test_what_holds_the_memory(folder):
    with opened(looked_at(folder)) as driver:
        same('heads', cells(driver, '#held-table thead tr')[0],
             ['class, by size', 'in all, B', 'blocks, live', 'live: asked for, B', 'live: rounding, B', 'slabs of CPUs, B',
              'free in spans, B'])
        same('the greatest first', cells(driver, '#held-table tbody tr')[:2],
             [['large blocks', '4,194,304', '1', '4,194,304', '0', '0', '0'],
              ['class 0 (16 B)', '8,192', '1', '10', '6', '48', '8,128']])
        same('heads stay', driver.execute_script('return getComputedStyle(document.querySelector("#held-table th")).position'), 'sticky')
        press(driver, 'held-slider', 'END')
        # Live are 16 + 106496 bytes; the span has 8192 - 16 more; 242 pages and a hugepage are backed and unused.
        same('at the end', text_of(driver, 'held-text'),
             'trace line 5, call 4 (model): resident 4.00 MiB = live 104.0 KiB + kept for small objects 7.98 KiB '
             '+ backed and unused 3.89 MiB.')


def test_pages_fit_each_width_in_both_schemes(folder):
    traces = {'look': 'buffers.trace', 'numa': 'numa_full.trace'}
    for name, trace in traces.items():
        served(name, tool('look', os.path.join(EXAMPLES, trace), '--into', '%s/%s.html' % (folder, name)))
    served('beside', tool('look', os.path.join(EXAMPLES, 'frees.trace'), '--classes', TOY, '--beside', 'cache=0',
                          '--into', folder + '/beside.html'))
    seen = [('look', width, scheme) for width in WIDTHS for scheme in SCHEMES]
    seen += [(name, *each) for name in ('numa', 'beside') for each in ((390, 'light'), (1280, 'dark'))]
    with browser() as driver:
        for name, width, scheme in seen:
            what = '%s at %d, %s' % (name, width, scheme)
            show(driver, '%s/%s.html' % (folder, name), width, scheme=scheme)
            same(what + ': what lies over another or is too wide', overlaps(driver), [])
            contrast = least_contrast(driver)
            same('%s: contrast of %s' % (what, contrast), contrast[0] >= 4.5, True)
        log_is_empty(driver)


def test_colours_follow_the_scheme_and_are_apart_in_grey(folder):
    with opened(looked_at(folder)) as driver:
        light = driver.execute_script('return part("course").layout.paper_bgcolor')
        lay_out(driver, scheme='dark')
        time.sleep(0.5)
        dark = driver.execute_script('return part("course").layout.paper_bgcolor')
        same('the plot is drawn anew', (light, dark), ('#fff', '#14181d'))
        driver.execute_script('dispatchEvent(new Event("beforeprint"))')
        same('light on paper', driver.execute_script('return part("course").layout.paper_bgcolor'), '#fff')
        driver.execute_script('dispatchEvent(new Event("afterprint"))')
        # Of two curves of a plot not both the dash and the width are the same; of two parts not colour and pattern.
        drawn_so = driver.execute_script('return part("course").data.filter(each => each.line).map(each => `${each.yaxis} ${each.line.dash}`)')
        same('dashes are apart', len(set(drawn_so)), len(drawn_so))
        parts = driver.execute_script('return PARTS.filter(([name]) => name !== "caches").map(each => `${each[2]}${each[3]}`)')
        same('parts are apart', len(set(parts)), len(parts))


def printed(driver):
    """The pages of a page that is printed."""
    return base64.b64decode(driver.execute_cdp_cmd('Page.printToPDF', {})['data'])


def test_a_page_is_printed_in_light(folder):
    with opened(looked_at(folder), scheme='dark') as driver:
        same('a document', printed(driver)[:5], b'%PDF-')
        same('dark again', driver.execute_script('return part("course").layout.paper_bgcolor'), '#14181d')


def test_a_browser_that_cannot_unpack_is_told_so(folder):
    page = looked_at(folder)
    with browser() as driver:
        driver.execute_cdp_cmd('Page.addScriptToEvaluateOnNewDocument', {'source': 'delete window.DecompressionStream'})
        driver.get('file://' + page)
        same('the line', 'it has no DecompressionStream' in text_of(driver, 'unpacking'), True)


def test_names_that_look_like_the_end_of_a_page(folder):
    trace = write(folder + '/<!--<script>.trace', 'a 0 0 10\n')
    served('look', tool('look', trace, '--classes', TOY, '--into', folder + '/n.html'))
    with opened(folder + '/n.html') as driver:
        same('the title', text_of(driver, 'title'), '<!--<script>.trace over time')
    told = pages.json_of({'</script>': '<!--'})
    same('as JSON', (told, json.loads(told)), ('{"\\u003c/script>":"\\u003c!--"}', {'</script>': '<!--'}))


def test_two_runs_over_each_other(folder):
    with opened(looked_at(folder, '--beside', 'cache=0')) as driver:
        # With no free hugepage that stays backed the filler's alone is left at the end: 2 MiB in place of 4.
        same('the end of each', drawn(driver, 'resident, as recorded')[:2] + drawn(driver, 'resident, cache 0')[:2],
             [[0, 2, 3, 4, 5], [0, 2, 6, 4, 4], [0, 2, 3, 4, 5], [0, 2, 6, 2, 2]])
        rows = {row[0]: row[1:] for row in cells(driver, '#beside-measures tbody tr')}
        same('heads', cells(driver, '#beside-measures thead tr')[0], ['what it comes to', 'as recorded', 'cache 0', 'difference'])
        same('the same peak', rows['greatest resident, MiB'], ['6.00', '6.00', '0'])
        same('another end', rows['resident at the end, MiB'], ['4.00', '2.00', '\u22122.00'])
        same('no difference in parts', [row[3] for row in cells(driver, '#beside-parts tbody tr')], ['0'] * 6)


def test_a_page_says_in_red_that_a_request_got_nothing(folder):
    trace = write(folder + '/none.trace', 'huge 1\na 0 0 2097152\na 0 1 2097152\nf 0 1\nf 0 0\n')
    served('look', tool('look', trace, '--classes', TOY, '--into', folder + '/n.html'))
    with opened(folder + '/n.html') as driver:
        same('alarm', text_of(driver, 'alarms'),
             '1 request got nothing, first at trace line 3: the heap had no place for them.')
        colour = driver.find_element('css selector', '.alarm').value_of_css_property('color')
        red, green, blue = [int(part) for part in re.findall('[0-9]+', colour)][:3]
        same('in red', red > 3 * green and red > 3 * blue, True)
