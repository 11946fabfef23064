"""The library that is loaded before the program's own. It is compiled once, into the user's cache folder."""
import hashlib
import os
import shutil
import subprocess

from shared import ends
from shared.ends import Stop

SOURCE = os.path.join(os.path.dirname(os.path.realpath(__file__)), 'record.c')
COMPILER = ['gcc', '-std=gnu11', '-O2', '-Wall', '-Wextra', '-fPIC', '-shared', '-fvisibility=hidden',
            '-ftls-model=initial-exec', '-fno-builtin']


def cache():
    """The cache folder. A name that begins in this folder is made whole, as the program may go to another one."""
    return os.path.abspath(os.path.join(os.environ.get('XDG_CACHE_HOME') or os.path.expanduser('~/.cache'), 'tcreplay'))


def built():
    """The library's path. Its name has the checksum of its source, so that each checkout finds its own."""
    checksum = hashlib.sha256(ends.read_bytes(SOURCE) + ' '.join(COMPILER).encode()).hexdigest()[:16]
    path = os.path.join(cache(), 'record.%s.so' % checksum)
    if any(mark in path for mark in ' :'):      # the loader parts the names of its libraries at these
        raise Stop('the path %s must have no space and no colon; XDG_CACHE_HOME names another folder' % path)
    if not os.path.exists(path):
        compile_to(path)
    return path


def compile_to(path):
    if shutil.which(COMPILER[0]) is None:
        raise Stop('gcc is missing: the recorder\'s library is compiled with it once; tools/setup installs it')
    try:
        os.makedirs(os.path.dirname(path), exist_ok=True)
    except OSError as fault:
        raise Stop('%s can\'t be made: %s; XDG_CACHE_HOME names another folder' % (cache(), fault.strerror)) from None
    if not os.access(cache(), os.W_OK):
        raise Stop('%s can\'t be written; XDG_CACHE_HOME names another folder' % cache())
    made = '%s.%d' % (path, os.getpid())
    done = subprocess.run(COMPILER + ['-o', made, SOURCE, '-ldl'], stdout=subprocess.DEVNULL, stderr=subprocess.PIPE,
                          text=True)
    if done.returncode != 0:
        said = [line for line in done.stderr.split('\n') if 'error' in line] or [done.stderr.strip() or 'no message']
        raise Stop('the library couldn\'t be compiled (tools/setup installs what it needs): %s' % said[0])
    os.replace(made, path)
