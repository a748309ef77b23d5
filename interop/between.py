"""What stands between a firm and the service: it passes on what both send, frame by frame, keeps all of it, and may lose, garble
or hold back a frame, or end the connection, by a rule. interop/certify judges by it, and checks/session tries the session on it.
"""
import socket
import sys
import threading
import time

sys.dont_write_bytecode = True
from session import Closed, Feed

TO_SERVICE, TO_FIRM = ">", "<"
CUT = object()  # what a rule answers where the connection is to end


class Seen:
    """A frame that came by: its way, the connection (counted from 1), its message (None where it is garbled), when, and whether
    it was passed on as it was."""

    def __init__(self, way, link, frame, message):
        self.way, self.link, self.frame, self.message = way, link, frame, message
        self.at, self.is_whole = time.time(), True

    def is_of(self, way, kind):
        return self.way == way and self.message is not None and self.message.kind == kind

    def __str__(self):
        return f"{self.way} " + self.frame.decode("latin-1").replace("\x01", "|")


def garbled(frame):
    """The frame with another checksum."""
    return b"%b10=%03d\x01" % (frame[:-7], (int(frame[-4:-1]) + 1) % 256)


class Between:
    """Listens on a port of 127.0.0.1, and has a connection to the service for each that comes. A rule is asked of each frame what
    to pass on: the frame, other bytes, none of them, or CUT."""

    def __init__(self, service, port=0):
        self.service, self.rule, self.seen, self.links = service, None, [], 0
        self.changed, self.open = threading.Condition(), []
        self.listener = socket.create_server(("127.0.0.1", port))
        self.port = self.listener.getsockname()[1]
        threading.Thread(target=self.accept, daemon=True).start()

    def accept(self):
        while True:
            try:
                firm, _ = self.listener.accept()
            except OSError:
                return
            try:
                pair = firm, socket.create_connection(("127.0.0.1", self.service))
            except OSError:
                firm.close()
                continue
            for it in pair:
                it.setsockopt(socket.IPPROTO_TCP, socket.TCP_NODELAY, 1)
            with self.changed:
                self.links += 1
                self.open.append((self.links, pair))
                self.changed.notify_all()
            for way, ends in ((TO_SERVICE, pair), (TO_FIRM, pair[::-1])):
                threading.Thread(target=self.pump, args=(way, self.links, *ends), daemon=True).start()

    def pump(self, way, link, source, sink):
        """Passes on what comes one way, until that ends."""
        feed = Feed()
        try:
            while data := source.recv(65_536):
                for frame, message in feed.frames(data):
                    self.passes(Seen(way, link, frame, message), sink)
        except (OSError, Closed):
            pass
        self.end(link)

    def passes(self, seen, sink):
        rule = self.rule
        if seen.way == TO_SERVICE:
            self.note(seen)
        data = rule(seen) if rule else seen.frame
        seen.is_whole = data == seen.frame
        if seen.way == TO_FIRM:
            seen.at = time.time()
            self.note(seen)
        if data is CUT:
            raise Closed("cut")
        sink.sendall(data)

    def note(self, seen):
        with self.changed:
            self.seen.append(seen)
            self.changed.notify_all()

    def end(self, link=None):
        """Ends a connection, or all."""
        with self.changed:
            for number, pair in list(self.open):
                if link in (None, number):
                    self.open.remove((number, pair))
                    for it in pair:
                        shut(it)
            self.changed.notify_all()

    def waits(self, test, seconds):
        """What the test finds, asked anew at whatever comes by, or nothing after so many seconds."""
        until = time.monotonic() + seconds
        with self.changed:
            while not (found := test()) and (left := until - time.monotonic()) > 0:
                self.changed.wait(left)
            return found

    def close(self):
        shut(self.listener)
        self.end()


def shut(stream):
    try:
        stream.shutdown(socket.SHUT_RDWR)
    except OSError:
        pass
    stream.close()
