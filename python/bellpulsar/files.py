"""What the command line reads and writes: files, and the standard streams where a file's name is -."""

import contextlib
import errno
import os
import shutil
import signal
import sys

STANDARD = "-"


def reason_of(error):
    """What could not be read or written, and why."""
    reason = error.strerror or str(error)
    return "%s: %s" % (error.filename, reason) if error.filename else reason


def standard_input():
    """Its descriptor."""
    if sys.stdin is None:
        raise OSError("standard input is closed")
    return sys.stdin.fileno()


def standard_output():
    if sys.stdout is None:
        raise OSError("standard output is closed")
    return sys.stdout.buffer


@contextlib.contextmanager
def named(path):
    """A failure that has no file's name yet has this one."""
    try:
        yield
    except OSError as error:
        if error.errno is None or error.filename is not None or path == STANDARD:
            raise
        raise OSError(error.errno, error.strerror, path) from None


@contextlib.contextmanager
def reading(path):
    """The descriptor of a file that is read."""
    if path == STANDARD:
        yield standard_input()
    else:
        with open(path, "rb", buffering=0) as file:
            yield file.fileno()


def start_of(path, limit):
    """Of a file, at most so many bytes."""
    with reading(path) as source, named(path), open(source, "rb", closefd=False) as file:
        return file.read(limit)


# --- writing ----------------------------------------------------------------------------------

ENDINGS = (signal.SIGINT, signal.SIGTERM, signal.SIGHUP)


@contextlib.contextmanager
def removed_at_the_end(path):
    """Whatever ends the work, or the whole command, this file is not left behind."""

    def end(number, _):
        with contextlib.suppress(OSError):
            os.remove(path)
        signal.signal(number, signal.SIG_DFL)
        os.kill(os.getpid(), number)

    heard = [number for number in ENDINGS if signal.getsignal(number) != signal.SIG_IGN]
    before = {number: signal.signal(number, end) for number in heard}
    try:
        yield
    finally:
        with contextlib.suppress(OSError):
            os.remove(path)
        for number, handler in before.items():
            signal.signal(number, handler)


@contextlib.contextmanager
def replacing(path):
    """A file that takes its name when all is written; until then what stood there before has it."""
    real = os.path.realpath(path)
    there = os.path.exists(real)
    if there and not os.access(real, os.W_OK):
        raise OSError(errno.EACCES, os.strerror(errno.EACCES))
    part = os.path.join(os.path.dirname(real), ".bellpulsar-%d" % os.getpid())
    with removed_at_the_end(part):
        try:
            file = open(part, "wb")
        except OSError as error:
            raise OSError(error.errno, error.strerror) from None  # it is told by the name that was given
        with file:
            yield file
        if there:
            shutil.copymode(real, part)
        os.replace(part, real)


@contextlib.contextmanager
def writing(path):
    """A file to write to: it is whole at the end, or what it was before. A device, a pipe and standard output have what
    is written as it comes."""
    with named(path):
        if path == STANDARD:
            file = standard_output()
            yield file
            file.flush()
        elif os.path.exists(path) and not os.path.isfile(path):
            with open(path, "wb") as file:
                yield file
        else:
            with replacing(path) as file:
                yield file


def put(text, path=STANDARD):
    with writing(path) as file:
        file.write(text.encode())


def tell(text):
    """On standard error, if it can be written at all."""
    signal.signal(signal.SIGPIPE, signal.SIG_IGN)
    with contextlib.suppress(OSError):
        if sys.stderr is not None:
            sys.stderr.write(text)
            sys.stderr.flush()
