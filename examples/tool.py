"""How the tools of this folder begin and end: the Python that they need, and each fault as one line.

It is imported before anything that an older Python doesn't read, so that this is told and not a traceback.
"""
import os
import signal
import sys

NAME = os.path.basename(sys.argv[0])
if sys.version_info < (3, 9):
    sys.exit("%s: this is Python %d.%d, and it needs 3.9 or later" % (NAME, *sys.version_info[:2]))
# An end by Ctrl-C, or by a reader that has gone, is one by the signal, without a word.
signal.signal(signal.SIGINT, signal.SIG_DFL)
signal.signal(signal.SIGPIPE, signal.SIG_DFL)
if sys.stdin is None:  # it was closed: as if nothing came
    sys.stdin = open(os.devnull)
if sys.stdout is None:
    sys.exit(f"{NAME}: standard output is closed")
told = set()


class Fault(Exception):
    """What ends a tool with status 1: its text is for whoever runs it."""


def say(text):
    """Tells something once, on standard error."""
    if text not in told:
        told.add(text)
        print(f"{NAME}: {text}", file=sys.stderr, flush=True)


def called(path):
    """How a file is called in what is said of it."""
    return "standard input" if path == "-" else path


def content(path):
    """The bytes of a file; `-` is standard input."""
    try:
        if path == "-":
            return sys.stdin.buffer.read()
        with open(path, "rb") as file:
            return file.read()
    except OSError as fault:
        raise Fault(f"{called(path)}: {fault.strerror}") from None


def run(main):
    """Runs a tool. A fault is a line on standard error, and status 1."""
    try:
        main()
        sys.stdout.flush()
    except Fault as fault:
        say(fault)
    except OSError as fault:
        say(f"{fault.filename or 'standard output'}: {fault.strerror}")
    else:
        return
    try:
        sys.stdout.close()
    except OSError:
        pass  # what it held can't be written either
    sys.exit(1)
