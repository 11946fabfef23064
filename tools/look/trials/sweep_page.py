"""The page of a sweep in a real browser: its numbers by hand, its signs and labels, at three widths and in both schemes."""
import json

from browsing import SCHEMES, WIDTHS, browser, cells, least_contrast, log_is_empty, opened, overlaps, show, text_of
from support import TOY, same, served, tool, worked, write

import model


def test_the_page_of_a_sweep(folder):
    served('sweep', tool('sweep', worked(folder), 'cache=0,2', '--classes', TOY, '--csv', folder + '/s.csv',
                         '--into', folder + '/s.html'))
    with opened(folder + '/s.html') as driver:
        # All peak at line 3 with 6 MiB. At the end one has hugepage 1 alone, one a free one, too, and one all three.
        rest = ['0', '0', '27', '6.750', '◆ tie of 3']
        first = ['6.00', '3', '4.00']
        same('rows', cells(driver, '#rows tbody tr'), [
            ['1', 'worked.trace, as recorded', '(1)', *first, '4.00', '0.10', '14', '974', *rest],
            ['2', 'worked.trace', '0', *first, '2.00', '0.10', '14', '949', *rest],
            ['3', 'worked.trace', '2', *first, '6.00', '0.10', '14', '983', *rest]])
        same('units', cells(driver, '#rows thead tr')[0][2:10], [
            'cache, hugepages', 'peak resident, MiB', 'at trace line', 'live then, MiB', 'end resident, MiB', 'end live, MiB',
            'end used, pages', 'end frag, 1/1000'])
        same('one sign for three', driver.execute_script('return layers.map(layer => [layer.x, layer.y, layer.labels])'),
             [[[6.75], [6], ['1, 2, 3 (×3)']]])
        ranges = driver.execute_script('const {xaxis, yaxis} = part("plot")._fullLayout; return [xaxis.range[0], yaxis.range[0]]')
        same('axes begin at 0', ranges, [0, 0])
        same('whose numbers', 'All numbers are the program\'s.' in text_of(driver, 'subtitle'), True)
        same('where it came from', text_of(driver, 'origins'), 'worked.trace: origin unknown')


def test_the_page_at_all_widths_and_in_both_schemes(folder):
    trace = write(folder + '/made.trace', model.made_trace(3, 2000, 4))
    served('sweep', tool('sweep', trace, 'transfer=0,4,64', 'percpu=4096,1572864', 'release=none,100/100', '--points', '6',
                         '--into', folder + '/m.html', '--csv', folder + '/m.csv'))
    with browser() as driver:
        for width in WIDTHS:
            for scheme in SCHEMES:
                show(driver, folder + '/m.html', width, scheme=scheme)
                what = '%d points wide, %s' % (width, scheme)
                labels = driver.execute_script('return part("plot").layout.annotations.length')
                same(what + ': labels', labels > 0, True)
                same(what + ': nothing overlaps', overlaps(driver), [])
                same(what + ': contrast', least_contrast(driver)[0] > 4.5, True)
                log_is_empty(driver)


def test_pages_of_names_that_end_scripts_and_of_refused_runs(folder):
    trace = write(folder + '/<!--<script>.trace', 'a 0 0 1\n')
    beside = {'program': '</script>', 'by': 'import', 'words': ['</script><!--'], 'cut': None, 'skip': 0, 'every': 1,
              'left_out': {}, 'release': None, 'moves': {'drawn': False}, 'sha256': ''}
    write(folder + '/<!--<script>.json', json.dumps(beside))
    served('sweep', tool('sweep', trace, 'cache=0', '--csv', folder + '/s.csv', '--into', folder + '/s.html'))
    tool('sweep', write(folder + '/bad.trace', 'f 0 0\n'), '--csv', folder + '/b.csv', '--into', folder + '/b.html')
    with opened(folder + '/s.html') as driver:
        same('the origin', text_of(driver, 'origins'),
             '<!--<script>.trace: imported from </script><!--; no moves drawn; changed since')
        show(driver, folder + '/b.html')
        same('it is said', text_of(driver, 'alarms'), '1 of 1 runs was refused; the rows say why.')
        same('the row says why', cells(driver, '#rows tbody tr')[0][-1], 'status 4: tcreplay: trace line 1: labelunknown')
