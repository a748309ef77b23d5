"""Serves the page of examples/page on 127.0.0.1, to be read only."""
import gc
import hashlib
import os
import signal
import socketserver
import sys
import threading
import time
from http.server import BaseHTTPRequestHandler

from tool import Fault, say

SLOW, REST = 1.0, 3  # seconds for a page to be a slow one, and how many times as long it rests before it is loaded anew
HEADERS = {"Cache-Control": "no-store", "Referrer-Policy": "no-referrer"}
HEADERS |= {"X-Content-Type-Options": "nosniff", "X-Frame-Options": "DENY"}


class Page:
    """The page of some files: made anew when it is asked for and one of them has changed."""

    def __init__(self, files, make):
        self.files, self.make, self.lock, self.kept, self.rests_until = files, make, threading.Lock(), (None, b""), 0.0

    def mark(self):
        """What changes when a file does."""
        try:
            seen = [os.stat(path) for path in self.files]
        except OSError as fault:
            raise Fault(f"{fault.filename}: {fault.strerror}") from None
        text = repr([(it.st_dev, it.st_ino, it.st_size, it.st_mtime_ns) for it in seen])
        return f'"{hashlib.sha256(text.encode()).hexdigest()[:32]}"'

    def text(self):
        """Its mark and its bytes."""
        with self.lock:
            if self.kept[0] != (mark := self.mark()):
                before = time.monotonic()
                self.kept = mark, self.make(mark).encode()
                gc.collect()
                took = time.monotonic() - before
                self.rests_until = time.monotonic() + (REST * took if took > SLOW else 0)
            return self.kept

    def newest(self):
        """What an open page compares with its own mark: after one that took long the same for a while."""
        mark = self.mark()
        return self.kept[0] if time.monotonic() < self.rests_until else mark


class Server(socketserver.ThreadingTCPServer):
    """A browser that breaks off ends its own request, and not the server."""

    allow_reuse_address = daemon_threads = True

    def __init__(self, *given):
        signal.signal(signal.SIGPIPE, signal.SIG_IGN)
        super().__init__(*given)

    def handle_error(self, request, client_address):
        if not isinstance(sys.exc_info()[1], OSError):
            super().handle_error(request, client_address)


class Handler(BaseHTTPRequestHandler):
    """Answers GET and HEAD of `/`. A request for another host's name is refused: a page of the web can't read this one
    by a name of its own that leads to this machine."""
    server_version, sys_version, timeout = "page", "", 30

    def do_GET(self):
        port = self.server.server_address[1]
        if self.headers.get("Host") not in (f"127.0.0.1:{port}", f"localhost:{port}"):
            return self.send(403, "text/plain", b"this is 127.0.0.1 alone\n")
        if self.path != "/":
            return self.send(404, "text/plain", b"there is one page, at /\n")
        try:
            mark, text = self.server.page.text() if self.command == "GET" else (self.server.page.newest(), b"")
        except (Fault, OSError) as fault:
            say(fault)
            return self.send(500, "text/plain", f"{fault}\n".encode(), Refresh="5")
        return self.send(200, "text/html", text, ETag=mark)

    do_HEAD, log_message = do_GET, lambda *_: None

    def send(self, status, kind, text, **more):
        self.send_response(status)
        more |= {"Content-Length": str(len(text))} if self.command == "GET" else {}
        for name, value in {**HEADERS, "Content-Type": f"{kind}; charset=utf-8", **more}.items():
            self.send_header(name, value)
        self.end_headers()
        self.wfile.write(text if self.command == "GET" else b"")


def serve(port, files, make):
    """Serves until a signal ends it. Files that can't be read at the start are a fault."""
    page = Page(files, make)
    page.text()
    try:
        server = Server(("127.0.0.1", port), Handler)
    except OSError as fault:
        raise Fault(f"127.0.0.1:{port}: {fault.strerror}") from None
    server.page = page
    say(f"the page is at http://127.0.0.1:{server.server_address[1]}/")
    server.serve_forever()
