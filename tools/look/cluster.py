"""Runs the cases of a sweep on a Dask cluster that the user has."""
import logging
import os
import re

from shared import ends
from shared.ends import Stop
from shared.wording import shown

import changed
import sweeping

TRIES = 4                       # of a case whose worker is lost
CONNECT = '15s'
ADDRESS = re.compile(r'(?:(?:tcp|tls|ws|wss|ucx)://)?(?:[A-Za-z0-9._-]+|\[[0-9a-fA-F:.]+\]):[0-9]{1,5}')


def check(address):
    """An address must have the form of one, and Dask must be there."""
    if not ADDRESS.fullmatch(address):
        raise Stop('--scheduler is an address as tcp://127.0.0.1:8786, and not %s' % (shown(address) or 'an empty word'))
    ends.package('distributed', 'python3-distributed')


def on_worker(files, data, heads, machine, left_out, points):
    """One case on a worker, which keeps program, table and order file in its own folder. Only plain values come as they are."""
    from distributed import get_worker
    folder = get_worker().local_directory
    own = {name: kept_file(folder, name, content, 0o700 if name == 'built' else 0o600) for name, content in files.items()}
    return sweeping.measure(sweeping.Machine(*machine)._replace(**own), data, heads, left_out, points)


def kept_file(folder, name, data, mode):
    import hashlib
    import threading
    path = os.path.join(folder, '%s.%s' % (name, hashlib.sha256(data).hexdigest()[:16]))
    if not os.path.exists(path):
        made = '%s.%d' % (path, threading.get_ident())
        with open(os.open(made, os.O_WRONLY | os.O_CREAT | os.O_TRUNC, mode), 'wb') as file:
            file.write(data)
        os.replace(made, path)
    return path


def run(address, cases, traces, machine, left_out, points):
    """Yields (case, row) as they end. What all cases need goes to each worker once."""
    distributed = ends.package('distributed', 'python3-distributed')
    logging.disable()           # what is lost is tried again, and what can't be done is said in one line
    by_value()
    try:
        client = distributed.Client(address, timeout=CONNECT)
    except (OSError, ValueError, TimeoutError):
        raise Stop('no scheduler answers at %s' % address) from None
    try:
        client.wait_for_workers(1, timeout=CONNECT)
        paths = {name: getattr(machine, name) for name in ('built', 'classes', 'order')}
        files = {name: ends.read_bytes(path) for name, path in paths.items() if path is not None}
        yield from shared_out(client, distributed, cases, traces, files, (tuple(machine), left_out, points))
    except TimeoutError:
        raise Stop('the scheduler at %s has no worker: dask-worker %s starts one' % (address, address)) from None
    finally:
        client.close(timeout=2)


def by_value():
    """The workers need none of these modules: they get them with the function."""
    import cloudpickle
    import shared
    from shared import heads, prefixes, program, releases
    for module in (shared, ends, heads, program, prefixes, releases, changed, sweeping, __import__(__name__)):
        cloudpickle.register_pickle_by_value(module)


def shared_out(client, distributed, cases, traces, files, rest):
    machine, left_out, points = rest
    left, tries = list(cases), 0
    while left:
        parts = {name: client.scatter(data, broadcast=True, hash=False) for name, data in traces.items()}
        common = client.scatter([files], broadcast=True, hash=False)[0]
        futures = {client.submit(on_worker, common, parts[case.trace], case.heads, machine, left_out[case.trace], points,
                                 pure=False): case for case in left}
        left = []
        for future in distributed.as_completed(futures):
            fault = future.exception() if future.status == 'error' else None
            if future.status == 'finished':
                yield futures[future], future.result()
            elif future.status in ('cancelled', 'lost') or isinstance(fault, distributed.scheduler.KilledWorker):
                left.append(futures[future])
            else:
                raise Stop('a worker failed: %s' % fault)
        tries += 1
        if left and tries == TRIES:
            raise Stop('%d cases were lost with their workers' % len(left))
