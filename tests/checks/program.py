"""Running the built program, and what is wrong with a result."""
import os
import resource
import signal
import subprocess
import tempfile

TOP = os.path.dirname(os.path.dirname(os.path.dirname(os.path.abspath(__file__))))
PROGRAM = os.path.join(TOP, 'crates', 'tcreplay', 'out', 'tcreplay')
MODEL = os.path.join(TOP, 'model')
ROWS = os.path.join(TOP, 'tests', 'rows')
EXAMPLES = os.path.join(TOP, 'examples')
SECONDS = 600
UNBUILT = []            # commands of ./model that the program doesn't have yet

SERIAL = [b'serial', b'--classes', b'T0.csv']
ORDER = [b'order', b'--classes', b'T0.csv', b'--order', b'O']
READ_FAULT = b'tcreplay: read fault\n'
WRITE_FAULT = b'tcreplay: write fault\n'
NOTHING = b'calls 0\nlive 0 0\nused 0\nresident 0\nfrag 0\n'

PAGE = 8192             # bytes of a page
HUGE = 256 * PAGE       # bytes of a hugepage


def read(folder, name):
    with open(os.path.join(folder, name), 'rb') as file:
        return file.read()


def read_if(folder, name):
    return read(folder, name) if os.path.exists(os.path.join(folder, name)) else b''


SMALL_TABLE = read(EXAMPLES, 'T0.csv')


def if_built(command, checks):
    """These checks, or none where the program doesn't have the command yet."""
    return [] if command in UNBUILT else checks


def write_files(folder, files):
    for name, data in files.items():
        with open(os.path.join(folder.encode(), name), 'wb') as file:
            file.write(data)


def run(words, stdin, files, program=PROGRAM):
    """The status, standard output and standard error of one run. `files` maps names to bytes."""
    with tempfile.TemporaryDirectory() as folder:
        write_files(folder, files)
        done = subprocess.run([program.encode()] + words, input=stdin, cwd=folder,
                              stdout=subprocess.PIPE, stderr=subprocess.PIPE, timeout=SECONDS)
    return done.returncode, done.stdout, done.stderr


def differences(result, status, stdout, stderr=b''):
    """What is wrong with a result, in words."""
    wrong = []
    if result[0] != status:
        wrong.append('status %d in place of %d' % (result[0], status))
    if result[1] != stdout:
        wrong.append('stdout %r in place of %r' % (result[1][:300], stdout[:300]))
    if result[2] != stderr:
        wrong.append('stderr %r in place of %r' % (result[2][:300], stderr[:300]))
    return wrong


def run_with(streams, words=SERIAL, stdin=None, close=(), most_bytes=None, files={}, program=PROGRAM):
    """One run, of the program if nothing else is said, in which some streams are these descriptors, which are then closed here, and those with the
    numbers of `close` are closed in the program. Standard input is the first example, if nothing is said. A
    file that is written has at most so many bytes, where that is said."""
    with tempfile.TemporaryDirectory() as folder:
        write_files(folder, {b'T0.csv': SMALL_TABLE, **files})
        pipes = {'stdin': subprocess.PIPE, 'stdout': subprocess.PIPE, 'stderr': subprocess.PIPE}

        def begin():
            for number in close:
                os.close(number)
            if most_bytes is not None:
                signal.signal(signal.SIGXFSZ, signal.SIG_IGN)
                resource.setrlimit(resource.RLIMIT_FSIZE, (most_bytes, most_bytes))

        process = subprocess.Popen([program.encode()] + words, cwd=folder, preexec_fn=begin,
                                   **{**pipes, **streams})
        for descriptor in streams.values():
            os.close(descriptor)
        if 'stdin' not in streams and stdin is None:
            stdin = read(EXAMPLES, 'first.trace')
        try:
            stdout, stderr = process.communicate(stdin, timeout=SECONDS)
        except subprocess.TimeoutExpired:
            process.kill()
            process.communicate()
            raise
    return process.returncode, stdout or b'', stderr or b''


def unread_pipe():
    """A pipe's end for writing, of which nobody has the other."""
    reading, writing = os.pipe()
    os.close(reading)
    return writing


def full_device():
    """A device to which nothing can be written."""
    return os.open('/dev/full', os.O_WRONLY)
