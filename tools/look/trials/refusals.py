"""What the tools say where something is missing, bad or cut short: one line, and no page that is half written."""
import os
import resource
import signal
import time

from support import BUILT, PROGRAM, TOP, TOY, ended, one_line, run, same, started, tool, worked, write

import model


def left_in(folder):
    return sorted(name for name in os.listdir(folder) if 'html' in name or 'part' in name)


def without(folder, module):
    """An environment in which a module can't be imported."""
    hidden = '%s/without.%s' % (folder, module)
    os.mkdir(hidden)
    write('%s/%s.py' % (hidden, module), 'raise ImportError\n')
    return {**os.environ, 'PYTHONPATH': hidden}


def test_parts_that_are_missing_are_named(folder):
    trace, page, csv = worked(folder), folder + '/w.html', folder + '/s.csv'
    for module in ('plotly', 'tqdm'):
        env = without(folder, module)
        for name, words in (('look', []), ('sweep', ['cache=1', '--csv', csv])):
            result = tool(name, trace, *words, '--into', page, env=env)
            one_line('%s without %s' % (name, module), result, 1, 'python3-%s is missing' % module, 'tools/setup')
    result = tool('sweep', trace, 'cache=1', '--csv', csv, '--scheduler', 'tcp://127.0.0.1:9',
                  env=without(folder, 'distributed'))
    one_line('sweep without Dask', result, 1, 'python3-distributed is missing')
    same('no page', left_in(folder), [])


def fake(folder, name, script):
    path = write('%s/%s' % (folder, name), '#!/bin/sh\n' + script)
    os.chmod(path, 0o755)


def test_setup_names_what_it_may_not_install(folder):
    # Nothing is installed here, and nobody is root.
    fake(folder, 'dpkg-query', 'exit 1\n')
    fake(folder, 'id', 'echo 1000\n')
    env = {**os.environ, 'PATH': folder + ':' + os.environ['PATH']}
    result = run([os.path.join(TOP, 'tools', 'setup'), '--all'], env=env)
    one_line('setup', result, 1, 'only root', 'python3-plotly', 'python3-distributed', 'chromium-driver', 'heaptrack')


def test_a_program_that_is_not_built(folder):
    trace, page = worked(folder), folder + '/w.html'
    for name, words in (('look', []), ('acts', []), ('sweep', ['cache=1', '--csv', folder + '/s.csv'])):
        result = tool(name, trace, *words, '--into', page, '--program', folder + '/none')
        one_line(name, result, 1, 'isn\'t built', './tcreplay')
    same('no page', left_in(folder), [])


def test_bad_inputs_are_told_as_the_program_tells_them(folder):
    page = folder + '/w.html'
    bad, order = write(folder + '/bad.trace', 'a 0 0 1\nf 0 0\nf 0 0\n'), write(folder + '/bad.order', '7\n')
    for name in ('look', 'acts'):
        for words, said in (
                ([bad], 'tcreplay: trace line 3: labelfreed'),
                ([folder + '/none.trace'], 'No such file'),
                ([worked(folder), '--classes', bad], 'tcreplay: table row 1: fields'),
                ([worked(folder), '--classes', TOY, '--order', order], 'tcreplay: order line 1: thread'),
                ([worked(folder), '--classes', TOY, '--into', folder + '/none/w.html'], 'no such folder')):
            one_line('%s %s' % (name, said), tool(name, '--into', page, *words), 1, said)
    same('no page', left_in(folder), [])


def test_what_has_nothing_to_show(folder):
    page = folder + '/w.html'
    one_line('no call', tool('look', write(folder + '/empty.trace', 'huge 4\n'), '--into', page), 1, 'no call')
    one_line('a head that is none', tool('sweep', worked(folder), 'caches=1'), 1, 'no head of a trace')
    one_line('no trace', tool('sweep', 'cache=1'), 1, 'a trace is wanted')
    long = write(folder + '/long.trace', model.made_trace(1, 3000, 2))
    one_line('too many acts', tool('acts', long, '--into', page), 1, 'more than 5000 acts')
    long = write(folder + '/longer.trace', model.made_trace(1, 20001, 2))
    one_line('too many points', tool('look', long, '--points', 'all', '--into', page), 1, '20001 calls are too many')
    same('no page', left_in(folder), [])


def little_room():
    signal.signal(signal.SIGXFSZ, signal.SIG_IGN)
    resource.setrlimit(resource.RLIMIT_FSIZE, (20000, 20000))


def test_a_full_disk_leaves_no_page(folder):
    for name, words in (('look', []), ('acts', []), ('sweep', ['cache=1', '--csv', folder + '/s.csv'])):
        result = tool(name, worked(folder), *words, '--classes', TOY, '--into', folder + '/w.html',
                      preexec_fn=little_room)
        one_line(name, (result[0], '', result[2]), 1, 'File too large')
    same('no page', left_in(folder), [])


def test_an_interrupt_leaves_no_page(folder):
    trace = write(folder + '/made.trace', model.made_trace(3, 20000, 4))
    for number in (signal.SIGINT, signal.SIGTERM):
        running = started('look', trace, '--into', folder + '/w.html', '--points', '9000')
        time.sleep(3)
        running.send_signal(number)
        one_line('look', ended(running), 130, 'interrupted')
    same('no page', left_in(folder), [])


def test_from_a_program_to_its_page_in_one_step(folder):
    if PROGRAM != BUILT:
        return
    env = {name: value for name, value in os.environ.items() if name not in ('DISPLAY', 'WAYLAND_DISPLAY')}
    recorder = os.path.join(TOP, 'tools', 'record', 'record')
    words = [recorder, '--look', '--', 'perl', '-e', '$count{$_ % 7} .= $_ for 1 .. 1000']
    status, text, errors = run(words, cwd=folder, env=env)
    pages = [name for name in os.listdir(folder + '/perl.traces') if name.endswith('.html')]
    same('status', status, 0)
    same('pages in %r' % errors, len(pages), 1)
    same('the page is named', text, ''.join('perl.traces/%s\n' % name for name in pages))
