"""A disk whose writes and flushes are recorded, and the disks that a cut of its power may leave: what checks/power-cuts stands on.

The disk is served to a virtual machine as a network block device (NBD). All that happens stands in one list, in its order: what the disk was
asked and when it answered, and what clients of the machine were told. Each answer of the disk waits a while, another one each time, so that
many writes are open at once and a flush covers those alone that were answered before it came.
"""
import heapq
import mmap
import os
import selectors
import socket
import struct
import time
from typing import NamedTuple

SECTOR = 512
REQUEST, REPLY, OPTION = struct.Struct(">IHHQQI"), struct.Struct(">IIQ"), struct.Struct(">QII")
OPTION_REPLY, HAS_FLUSH = 0x3E889045565A9, 0b101
GO, IS_DONE, IS_INFO, IS_UNKNOWN = 7, 1, 3, 0x80000001
READ, WRITE, END, FLUSH = 0, 1, 2, 3


class Silent(Exception):
    """The machine, or its server, doesn't answer any more."""


class Turns:
    """Takes what comes at sockets and does what is due, one thing at a time: what clients are told first, what is due last."""

    def __init__(self):
        self.selector, self.due, self.count = selectors.DefaultSelector(), [], 0

    def watch(self, it, take, rank=1):
        self.selector.register(it, selectors.EVENT_READ, (rank, take))

    def forget(self, it):
        self.selector.unregister(it)

    def after(self, seconds, deed):
        self.count += 1
        heapq.heappush(self.due, (time.monotonic() + seconds, self.count, deed))

    def turn(self):
        wait = min(1, max(0, self.due[0][0] - time.monotonic())) if self.due else 1
        ready = [key.data for key, _ in self.selector.select(wait)]
        if ready:
            min(ready, key=lambda it: it[0])[1]()
        elif self.due and self.due[0][0] <= time.monotonic():
            heapq.heappop(self.due)[2]()

    def until(self, holds, seconds):
        """Turns until this holds: whether it does within so many seconds."""
        end = time.monotonic() + seconds
        while not holds() and time.monotonic() < end:
            self.turn()
        return holds()


class Event(NamedTuple):
    """A `write` that came, with its place and data, and that was answered (`written`); a `flush`, and `flushed`; or what was `told`: the number
    of an entry, and of an answer its firm and id."""

    kind: str
    number: int
    at: int = 0
    data: object = None


class Disk:
    """An image, and the sectors that were written over it."""

    def __init__(self, image, sectors):
        self.image, self.sectors = image, sectors

    @classmethod
    def of(cls, path):
        with open(path, "rb") as it:
            return cls(mmap.mmap(it.fileno(), 0, access=mmap.ACCESS_READ), {})

    def copy_to(self, path):
        """Writes the disk to a file."""
        with open(path, "wb") as it:
            it.write(self.image)
            for at, data in self.sectors.items():
                it.seek(at)
                it.write(data)

    def read(self, at, length):
        data = bytearray(self.image[at : at + length])
        for place in range(0, length, SECTOR):
            if sector := self.sectors.get(at + place):
                data[place : place + SECTOR] = sector
        return data

    def write(self, at, data, places=None):
        """Writes whole sectors, or of these the ones at these places of the data alone."""
        for place in range(0, len(data), SECTOR) if places is None else places:
            self.sectors[at + place] = data[place : place + SECTOR]


def some_of(chance, items):
    """Those of a list that a cut leaves: none, all, a front, a back, each by chance, all but one, or one."""
    at, one = chance.randrange(len(items) + 1), chance.randrange(len(items) or 1)
    by_chance = [it for it in items if chance.random() < 0.5]
    return chance.choice([[], items, items[:at], items[at:], by_chance, items[:one] + items[one + 1 :], items[one : one + 1]])


class Record:
    """What happened from a state of a disk on. Cuts stand before its end, an event's place, where that is set."""

    def __init__(self, disk):
        self.image, self.before, self.events, self.end = disk.image, dict(disk.sectors), [], None

    def add(self, *event):
        self.events.append(Event(*event))

    def of(self, kind, end=None):
        """The events of a kind before a moment, the place of an event, and their places."""
        return [(place, it) for place, it in enumerate(self.events[:end]) if it.kind == kind]

    def told(self, moment):
        """What was told before a moment, once each."""
        return list({(it.number, it.data): it for _, it in self.of("told", moment)}.values())

    def moments(self, count, chance):
        """So many moments, in their order: mostly just before a flush is answered, some just after something was told."""
        flushed = [place for place, _ in self.of("flushed", self.end)]
        told = [place + 1 for place, _ in self.of("told", self.end)]
        kinds = [it for it in (flushed, flushed, flushed, told, range(len(self.events[: self.end]) + 1)) if it]
        return sorted(chance.choice(chance.choice(kinds)) for _ in range(count))

    def covered(self, moment, forgotten):
        """The writes that a flush covers: answered before it came, and it before the moment. So many of the last flushes are forgotten."""
        came = {it.number: place for place, it in self.of("flush", moment)}
        done = [came[it.number] for _, it in self.of("flushed", moment)]
        last = max(done[: len(done) - forgotten], default=0)
        return {it.number for _, it in self.of("written", last)}

    def cut(self, moment, chance, forgotten=0):
        """A disk as a cut at a moment may leave it: what a flush covers, and some of the other writes, one in two of them torn."""
        covered, disk = self.covered(moment, forgotten), Disk(self.image, dict(self.before))
        writes = [it for _, it in self.of("write", moment)]
        left = set(some_of(chance, [it.number for it in writes if it.number not in covered]))
        for it in writes:
            if it.number in covered:
                disk.write(it.at, it.data)
            elif it.number in left:
                places = list(range(0, len(it.data), SECTOR))
                disk.write(it.at, it.data, some_of(chance, places) if chance.random() < 0.5 else places)
        return disk


class Drive:
    """What serves a disk to a machine, and records what the machine asks of it."""

    def __init__(self, turns, room, chance):
        self.turns, self.chance, self.held, self.count = turns, chance, b"", 0
        self.disk = self.record = self.socket = None
        self.path = f"{room}/disk"
        self.listener = socket.socket(socket.AF_UNIX)
        self.listener.bind(self.path)
        self.listener.listen()

    def insert(self, disk):
        """Puts a copy of a disk in, whose record begins."""
        self.disk, self.record = Disk(disk.image, dict(disk.sectors)), Record(disk)
        return self.record

    def plug(self):
        """Takes the machine's connection, and agrees with it on what there is: a size, and flushes."""
        self.listener.settimeout(60)
        self.socket = self.listener.accept()[0]
        self.socket.sendall(b"NBDMAGICIHAVEOPT" + struct.pack(">H", 0b11))
        self.exactly(4)
        while True:
            _, option, length = OPTION.unpack(self.exactly(OPTION.size))
            self.exactly(length)
            if option == GO:
                break
            self.tell(option, IS_UNKNOWN)
        self.tell(option, IS_INFO, struct.pack(">HQH", 0, len(self.disk.image), HAS_FLUSH))
        self.tell(option, IS_DONE)
        self.turns.watch(self.socket, self.take)

    def exactly(self, length):
        data = b""
        while len(data) < length:
            piece = self.socket.recv(length - len(data))
            if not piece:
                raise Silent("the machine has ended before it had its disk")
            data += piece
        return data

    def tell(self, option, kind, data=b""):
        self.socket.sendall(struct.pack(">QIII", OPTION_REPLY, option, kind, len(data)) + data)

    def take(self):
        """Takes the requests that have come whole."""
        piece = self.socket.recv(1 << 20)
        if not piece:
            raise Silent("the machine has ended")
        self.held += piece
        while len(self.held) >= REQUEST.size:
            _, _, kind, cookie, at, length = REQUEST.unpack_from(self.held)
            end = REQUEST.size + length * (kind == WRITE)
            if len(self.held) < end:
                return
            data, self.held = self.held[REQUEST.size : end], self.held[end:]
            self.serve(kind, cookie, at, data if kind == WRITE else length)

    def serve(self, kind, cookie, at, what):
        if kind == READ:
            self.answer(cookie, self.disk.read(at, what))
        elif kind == WRITE:
            self.disk.write(at, what)
            self.wait(cookie, ("write", "written"), at, what)
        elif kind == FLUSH:
            self.wait(cookie, ("flush", "flushed"))

    def wait(self, cookie, kinds, *what):
        """Records that a request came, and after a while that it is answered."""
        self.count += 1
        record, number = self.record, self.count
        record.add(kinds[0], number, *what)
        late = 0.03 if self.chance.random() < 0.03 else 0
        seconds = self.chance.uniform(0, 0.002 if kinds[0] == "write" else 0.006) + late
        self.turns.after(seconds, lambda: (record.add(kinds[1], number), self.answer(cookie)))

    def answer(self, cookie, data=b""):
        self.socket.sendall(REPLY.pack(0x67446698, 0, cookie) + data)

    def close(self):
        self.listener.close()
        os.remove(self.path)
        if self.socket:
            self.socket.close()
