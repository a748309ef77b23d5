"""The virtual machine of checks/power-cuts: a Debian kernel, busybox, and `allocd`, with a disk of power_disk.py's and a line for commands.

It runs by qemu's emulation, since what is looked for doesn't depend on the processor, and needs no root.
"""
import glob
import os
import re
import shutil
import socket
import subprocess
import sys

from harness import PATIENCE, TOP, compiled, free_port
from power_disk import Silent

OUTSIDE = "# Packages outside the gate: "
MODULES = "virtio_pci virtio_blk virtio_net xfs".split()
FOLDERS = "bin proc sys dev tmp m modules".split()


def lacking(script):
    """The Debian packages that a script names at its head and that aren't installed."""
    with open(script) as it:
        wanted = next(line for line in it if line.startswith(OUTSIDE)).removeprefix(OUTSIDE).split()
    told = subprocess.run(["dpkg-query", "-W", "-f=${Package} ${Status}\n", *wanted], capture_output=True, text=True).stdout
    return [it for it in wanted if f"{it} install ok installed\n" not in told]


def kernel():
    """The newest of Debian's kernels for clouds that is installed."""
    found = glob.glob("/boot/vmlinuz-*-cloud-amd64")
    return max(found, key=lambda it: [int(n) for n in re.findall(r"\d+", it)]).removeprefix("/boot/vmlinuz-")


def modules(version):
    """The files of the modules, each behind those that it needs."""
    folder, found = f"/lib/modules/{version}", []
    with open(f"{folder}/modules.dep") as it:
        needs = {line.split(":")[0]: line.split(":")[1].split() for line in it}
    paths = {os.path.basename(it).split(".")[0]: it for it in needs}
    for name in MODULES:
        found += [it for it in [*reversed(needs[paths[name]]), paths[name]] if it not in found]
    return [f"{folder}/{it}" for it in found]


def libraries(program):
    """The files of a program's libraries."""
    told = subprocess.run(["ldd", program], capture_output=True, text=True, check=True).stdout
    return re.findall(r"(/\S+) \(0x", told)


def make_root(room, allocd, house):
    """Makes the archive of the machine's files."""
    root = f"{room}/root"
    for folder in FOLDERS:
        os.makedirs(f"{root}/{folder}")
    files = {"/bin/busybox": "bin/busybox", allocd: "allocd", house: "house", f"{TOP}/checks/power_init.sh": "init"}
    files.update({it: it.lstrip("/") for it in libraries(allocd)})
    files.update({it: f"modules/{i:02}.ko" for i, it in enumerate(modules(kernel()))})
    for path, name in files.items():
        os.makedirs(os.path.dirname(f"{root}/{name}"), exist_ok=True)
        shutil.copy(path, f"{root}/{name}")
    compiled(f"{TOP}/checks/lying.c", f"{root}/lying.so")
    subprocess.run(f"cd {root} && find . | busybox cpio -o -H newc > {room}/files 2> /dev/null", shell=True, check=True)


class Machine:
    """A machine that runs, with what it is told at its line."""

    def __init__(self, turns, drive, room):
        self.turns, self.held, self.count, self.line = turns, b"", 0, None
        self.port, self.line_port, self.room = free_port(), free_port(), room
        self.qemu = subprocess.Popen(self.words(drive.path), stdin=subprocess.DEVNULL)
        try:
            drive.plug()
            self.begin()
        except Exception:
            self.close()
            raise

    def begin(self):
        if not self.turns.until(lambda: "\nready" in self.console(), PATIENCE):
            raise Silent(f"it doesn't start: {self.console()[-2000:]}")
        self.line = socket.create_connection(("127.0.0.1", self.line_port))
        self.turns.watch(self.line, self.take)
        self.run("true")

    def words(self, disk):
        net = f"user,id=net,restrict=on,hostfwd=tcp:127.0.0.1:{self.port}-127.0.0.1:5001,hostfwd=tcp:127.0.0.1:{self.line_port}-:5002"
        return [
            *"qemu-system-x86_64 -accel tcg -cpu Nehalem,+rdrand -m 256 -nodefaults -no-reboot -display none".split(),
            *f"-serial file:{self.room}/console -kernel /boot/vmlinuz-{kernel()} -initrd {self.room}/files -append".split(),
            "console=ttyS0 quiet panic=-1 no_timer_check mitigations=off",
            *f"-drive file=nbd:unix:{disk},format=raw,if=none,id=disk -device virtio-blk-pci,drive=disk,discard=off,write-zeroes=off".split(),
            *f"-netdev {net} -device virtio-net-pci,netdev=net,romfile=".split(),
        ]

    def console(self):
        try:
            with open(f"{self.room}/console", errors="replace") as it:
                return "\n" + it.read()
        except FileNotFoundError:
            return ""

    def take(self):
        piece = self.line.recv(1 << 20)
        if not piece:
            raise Silent(f"it has ended: {self.console()[-2000:]}")
        self.held += piece

    def tried(self, line, seconds=PATIENCE):
        """Runs a line of the shell: its status, and what it writes."""
        self.count += 1
        token, self.held = b"done-%d" % self.count, b""
        self.line.sendall(b"%b %b\n" % (token, line.encode()))
        ends = re.compile(rb"\n%b (\d+)\n\Z" % token)
        if not self.turns.until(lambda: ends.search(self.held, max(0, len(self.held) - 40)), seconds):
            raise Silent(f"no answer to '{line}': {self.held[-400:]!r}, {self.console()[-2000:]}")
        end = ends.search(self.held, max(0, len(self.held) - 40))
        return int(end[1]), self.held[: end.start()]

    def run(self, line, seconds=PATIENCE):
        """What a line of the shell writes, which has to end well."""
        status, said = self.tried(line, seconds)
        if status:
            sys.exit(f"'{line}' ended with {status}: {said.decode(errors='replace')}")
        return said

    def close(self):
        self.qemu.kill()
        self.qemu.wait()
        if self.line:
            self.line.close()
