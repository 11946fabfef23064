"""Two threads fill buffers, one by one, and the first thread drops them. buffers.trace is a record of it, made by

    tools/record/record --into FOLDER --cpus 2 python3 -I -S examples/buffers.py
"""
import _thread

ROUNDS = 48
KEPT = 12           # buffers that stay before the oldest one is dropped


def fill(box, sizes, empty, full):
    for size in sizes:
        empty.acquire()
        box.append(bytearray(size))
        if size % 3 == 0:
            box[0].extend(bytes(size // 2))
        full.release()


def taken_lock():
    lock = _thread.allocate_lock()
    lock.acquire()
    return lock


small = [520 + 40 * number for number in range(ROUNDS)]
rising = [600 + 150 * number * number for number in range(ROUNDS)]
fillers = [([], sizes, _thread.allocate_lock(), taken_lock()) for sizes in (small, rising)]
for filler in fillers:
    _thread.start_new_thread(fill, filler)
kept = []
for _ in range(ROUNDS):
    for box, _, empty, full in fillers:
        full.acquire()
        kept.append(box.pop())
        empty.release()
    del kept[:-KEPT]
