"""How a tool ends: with a status, and at a fault with one line on standard error and no traceback."""
import contextlib
import os
import signal
import stat
import sys

FAULT = 1
INTERRUPTED = 130
STANDARD_OUTPUT = 'standard output'


# While a tool's parts are still being loaded, an interrupt ends it without a word.
if signal.getsignal(signal.SIGINT) is signal.default_int_handler:
    signal.signal(signal.SIGINT, signal.SIG_DFL)


class Stop(Exception):
    """Ends the tool with this one line."""


def interrupt(*_):
    raise KeyboardInterrupt


def ended(name, main, prints=True):
    """Runs a tool's `main`, and answers its status. A tool that prints needs a standard output."""
    signal.signal(signal.SIGTERM, interrupt)
    if signal.getsignal(signal.SIGINT) == signal.SIG_DFL:
        signal.signal(signal.SIGINT, interrupt)
    if prints and sys.stdout is None:
        return told(name, STANDARD_OUTPUT + ' is closed', FAULT)
    try:
        return with_output(main)
    except Stop as stop:
        return told(name, stop, FAULT)
    except KeyboardInterrupt:
        return told(name, 'interrupted', INTERRUPTED)
    except OSError as fault:
        return told(name, fault_line(fault), FAULT)
    except UnicodeError:
        return told(name, 'a name isn\'t UTF-8', FAULT)
    except MemoryError:
        return told(name, 'out of memory', FAULT)


def with_output(main):
    """The status of `main`, also if it left by `sys.exit`, with all written that it printed."""
    try:
        status = main()
    except SystemExit as end:
        if isinstance(end.code, str):
            raise Stop(end.code) from None
        status = end.code or 0
    if sys.stdout is not None:
        sys.stdout.flush()
    return status


def fault_line(fault):
    """What to say of a fault of the system. All files that are opened here are named in theirs, so one without a name is
    of standard output."""
    return '%s: %s' % (STANDARD_OUTPUT if fault.filename is None else fault.filename, fault.strerror or fault)


def told(name, line, status):
    say('%s: %s' % (name, ' '.join(str(line).split())))
    return left(status)


def say(text):
    """A line on standard error, if that takes it."""
    if sys.stderr is not None:
        with contextlib.suppress(OSError):
            print(text, file=sys.stderr, flush=True)


def left(status):
    """Nothing that is still to be printed can fail at the end."""
    if sys.stdout is None:
        return status
    with contextlib.suppress(OSError, ValueError):
        sys.stdout.flush()
        return status
    os.dup2(os.open(os.devnull, os.O_WRONLY), sys.stdout.fileno())
    return status


@contextlib.contextmanager
def named(path):
    """A fault of reading or writing in here has the file's name."""
    try:
        yield
    except OSError as fault:
        if fault.filename is None:
            fault.filename = path
        raise


@contextlib.contextmanager
def written(path, look=lambda: None):
    """A text file that appears under its name when it is whole, and else not at all. `look` is called just before, and
    may refuse."""
    made = '%s.%d.part' % (path, os.getpid())
    try:
        with named(path), open(made, 'w', encoding='utf-8', newline='') as file:
            yield file
        look()
        os.replace(made, path)
    except BaseException:
        with contextlib.suppress(OSError):
            os.unlink(made)
        raise


def can_be_written(path):
    """Sees before the work begins that a file may be made under this name."""
    folder = os.path.dirname(os.path.abspath(path))
    if not os.path.isdir(folder):
        raise Stop('%s: there is no such folder' % folder)
    if os.path.isdir(path):
        raise Stop('%s is a folder' % path)
    if not os.access(folder, os.W_OK):
        raise Stop('%s: nothing can be written there' % folder)


def can_be_replaced(path, beginnings=(), force=False, inputs=()):
    """Sees that what stands under this name may be replaced: a regular file, and no link, that begins as one of our own
    does, or with `force` as it likes. An input is never replaced."""
    if not os.path.lexists(path):
        return
    kind = os.lstat(path).st_mode
    if not stat.S_ISREG(kind):
        raise Stop('%s is %s and isn\'t replaced' % (path, 'a link' if stat.S_ISLNK(kind) else 'no regular file'))
    if any(os.path.exists(one) and os.path.samefile(one, path) for one in inputs):
        raise Stop('%s is read and isn\'t replaced' % path)
    if not force and not begins(path, beginnings):
        raise Stop('%s is there, and isn\'t replaced without --force' % path)


def begins(path, beginnings):
    with open(path, 'rb') as file, named(path):
        first = file.read(max(map(len, beginnings), default=0))
    return any(first.startswith(beginning) for beginning in beginnings)


def read_bytes(path):
    with open(path, 'rb') as file, named(path):
        return file.read()


def package(module, debian):
    """A module of a Debian package, or one line on what to install."""
    try:
        return __import__(module, fromlist=['_'])
    except ImportError:
        setup = 'tools/setup' if debian in ('python3-plotly', 'python3-tqdm') else 'tools/setup --all'
        raise Stop('%s is missing: %s installs it' % (debian, setup)) from None
