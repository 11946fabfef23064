"""The tools that stand beside the program."""
import os
import subprocess

from checks.program import TOP

SECONDS = 3600          # a machine may be loaded, and a browser slow


def failures_of(tool):
    """What a tool's own tests say of those that failed."""
    done = subprocess.run([os.path.join(TOP, tool)], stdin=subprocess.DEVNULL, stdout=subprocess.PIPE,
                          stderr=subprocess.STDOUT, timeout=SECONDS)
    lines = done.stdout.decode(errors='replace').strip().split('\n')
    return [] if done.returncode == 0 else lines[:-1] or ['status %d' % done.returncode]


def tests_of_the_recorder():
    """Recording, importing, and what is said where that can't be done."""
    return failures_of('tools/record/test')


def tests_of_the_pages():
    """look, acts and sweep, with their pages in a browser and a cluster on this machine."""
    return failures_of('tools/look/test')


CASES = [tests_of_the_recorder, tests_of_the_pages]
