"""What the harnesses of this folder share: the programs that the gate built, growths that are refused, and the count
in the end. Frames and servers are those of examples/fix.py.

A harness runs programs that `rt ci` has proved and built, crates/NAME/out/NAME, and proves and builds none. Its
last line is 'N passed, M failed', and its status is 0 where M is 0.
"""
import os
import re
import shutil
import socket
import subprocess
import sys
import tempfile
from concurrent.futures import ThreadPoolExecutor

TOP = os.path.dirname(os.path.dirname(os.path.abspath(__file__)))
sys.path.insert(1, f"{TOP}/examples")
from fix import Ended, connected, framed, free_port, is_free  # some are for the harnesses

# The seconds after which a program that says nothing hangs. Programs on a loaded machine are slow, and nothing is learned of it.
PATIENCE = 300
TOLD = re.compile(rb"growths: (\d+), largest (\d+) bytes, refused (\d+)\n\Z")


def built(name):
    """The program of a crate, as `rt ci` or `rt run` left it; or the one that the environment names (`ALLOCD`, `TEST_BOOK`, ..)."""
    program = os.environ.get(name.upper()) or f"{TOP}/crates/{name}/out/{name}"
    if not os.access(program, os.X_OK):
        sys.exit(f"{name} isn't built: rt ci proves and builds it (or rt run in crates/{name})")
    return os.path.abspath(program)


def text(path):
    with open(f"{TOP}/{path}", "rb") as it:
        return it.read()


def exchanged(started, send):
    """Has a client send this to a server as soon as it listens, and end what it sends: the server's run, and what the client got until it was
    closed. `started` starts a server of one connection on a port, which may be taken meanwhile: then it is another port's turn."""
    for _ in range(10):
        port = free_port()
        server, got = started(port), b""
        try:
            with connected(port, server, PATIENCE) as client:
                client.sendall(send)
                client.shutdown(socket.SHUT_WR)
                while piece := client.recv(65_536):
                    got += piece
        except (Ended, OSError):
            pass
        try:
            out, err = server.communicate(timeout=PATIENCE)
        except subprocess.TimeoutExpired:
            server.kill()
            out, err = server.communicate()
        if not unlogged(err).startswith(b"cannot listen"):
            break
    return subprocess.CompletedProcess(server.args, server.returncode, out, err), got


def unlogged(err):
    """What `keep` has written on standard error beside the lines of its log."""
    return b"".join(it for it in err.splitlines(keepends=True) if not it.startswith(b"time="))


def end(passed, failed):
    """The last line of a harness, and its status: one that has looked at nothing has failed."""
    failed += not (passed or failed)
    print(f"{passed} passed, {failed} failed")
    sys.exit(1 if failed else 0)


def compiled(source, out):
    """Makes a library to be preloaded: by cc, or by the kit's clang and linker."""
    cc = shutil.which("cc")
    if cc:
        return subprocess.run([cc, "-shared", "-fPIC", "-O1", "-o", out, source], check=True)
    page = subprocess.run(["rt", "doc"], capture_output=True, text=True, check=True).stdout.strip()
    tools = f"{os.path.dirname(page)}/toolchain/bin"
    subprocess.run([f"{tools}/clang", "--target=x86_64-unknown-linux-gnu", "-fPIC", "-O1", "-c", "-o", f"{out}.o", source], check=True)
    return subprocess.run([f"{tools}/ld.lld", "-shared", "-o", out, f"{out}.o"], check=True)


class Run:
    """A run of a program with its growths counted: how it ended, what it wrote beside its log, and of its growths how many there were, how
    many bytes the largest asked for, and how many were refused."""

    def __init__(self, done):
        told = TOLD.search(done.stderr)
        self.status, self.out = done.returncode, done.stdout
        self.err = unlogged(done.stderr[: told.start()] if told else done.stderr)
        self.growths, self.largest, self.refused = map(int, told.groups()) if told else (0, 0, 0)


class Growths:
    """Runs programs with one growth refused."""

    def __init__(self):
        self.room = tempfile.TemporaryDirectory(prefix="checks-growths-")
        self.shim = f"{self.room.name}/refusing.so"
        compiled(f"{TOP}/checks/refusing.c", self.shim)

    def env(self, nth):
        """What has a program's N-th growth refused, or none, and told how many there were."""
        return dict(os.environ, LD_PRELOAD=self.shim, TOLD_GROWTHS="1", REFUSED_GROWTH=str(nth))

    def run(self, words, given, nth=0):
        """The run with the N-th growth refused, or with none."""
        run = Run(subprocess.run(words, input=given, capture_output=True, cwd=TOP, env=self.env(nth), timeout=PATIENCE))
        if not run.growths:
            sys.exit(f"{words}: its growths aren't counted: {run.err[-400:]}")
        return run

    def each(self, words, given, first=1):
        """The run with none refused, and then those with one refused, for each growth from the `first` on until a run meets none."""
        whole = self.run(words, given)
        numbers = range(first, whole.growths + 2)
        with ThreadPoolExecutor(os.cpu_count()) as pool:
            return whole, list(zip(numbers, pool.map(lambda nth: self.run(words, given, nth), numbers)))
