"""Who connects to a door, well or ill, with keys and certificates as interop/front/keys makes them; and a door with a server behind it."""
import os
import socket
import ssl
import subprocess
import sys
import time
import urllib.request

sys.path.insert(1, os.path.join(os.path.dirname(os.path.abspath(__file__)), "../../examples"))
from fix import LOGON, framed, free_port


def logon(firms, off=0, more=""):
    """A Logon with these SenderCompIDs."""
    names = "".join(f"49={firm}|" for firm in firms)
    return framed(f"35=A|{names}56=HSE|34=1|52=20260302-09:00:00|{LOGON}{more}", off)


def heard(stream):
    """What is sent until the connection ends, or nothing comes for a second after something that came."""
    held = b""
    try:
        while piece := stream.recv(65536):
            held += piece
            stream.settimeout(1)
    except TimeoutError:
        pass
    except OSError as fault:
        return held or type(fault).__name__.encode()
    return held


def told(held):
    """The types of the messages, but for reports, and whom they name."""
    bodies = held.split(b"8=FIXT.1.1\x01")[1:]
    firms = {body.split(b"\x0156=")[1].split(b"\x01")[0].decode() for body in bodies}
    kinds = [body.split(b"\x0135=")[1].split(b"\x01")[0].decode() for body in bodies]
    return " ".join(kind for kind in kinds if kind != "AS") + (" to " + ", ".join(firms) if bodies else "turned away")


class Door:
    """A door on a port of this machine, and the folder with the certificates by which it is asked."""

    def __init__(self, port, folder):
        self.port, self.folder = port, folder

    def bare(self):
        """A connection without TLS."""
        return socket.create_connection(("127.0.0.1", self.port), timeout=30)

    def connect(self, name, highest=ssl.TLSVersion.TLSv1_3):
        """A connection by a firm's certificate, or without one."""
        context = ssl.create_default_context(cafile=f"{self.folder}/ca.pem")
        context.check_hostname = False
        context.maximum_version = highest
        if name:
            context.load_cert_chain(f"{self.folder}/{name}.crt", f"{self.folder}/{name}.key")
        return context.wrap_socket(self.bare())

    def say(self, certificate, *pieces, **more):
        """Connects by a certificate and sends these pieces, each by itself: what comes back, in words."""
        try:
            with self.connect(certificate, **more) as stream:
                for at, piece in enumerate(pieces):
                    time.sleep(0.1 if at else 0)
                    stream.sendall(piece)
                return told(heard(stream))
        except (ssl.SSLError, ConnectionResetError, BrokenPipeError):
            return "turned away"


def within(seconds, holds):
    """Whether it becomes so in that time."""
    last = time.monotonic() + seconds
    while not holds():
        if time.monotonic() > last:
            return False
        time.sleep(0.1)
    return True


class Served:
    """A book in a folder, and its door, with the certificates of an authority."""

    def __init__(self, program, house, folder, authority):
        self.folder, self.house, self.program = folder, house, program
        self.server, self.status, self.front, self.metrics = (free_port() for _ in range(4))
        self.door = Door(self.front, authority)
        front = os.path.dirname(os.path.abspath(__file__))
        words = {"listen": self.front, "server": self.server, "metrics": self.metrics, "health": self.status}
        subprocess.run([f"{front}/door", house, folder, "--authority", authority, "--reload-wait", "1", "--wait", "3",
                        *(word for name, port in words.items() for word in (f"--{name}", f"127.0.0.1:{port}"))], check=True)
        self.start()
        proxy = ["haproxy", "-W", "-S", f"{folder}/master", "-f", f"{folder}/haproxy.cfg"]
        self.proxy = subprocess.Popen(proxy, env={**os.environ, "KEYS": authority}, stdout=subprocess.DEVNULL, stderr=subprocess.DEVNULL)
        if not within(60, lambda: self.is_up("UP")):
            self.close()
            raise RuntimeError("the server or the door doesn't listen")

    def start(self):
        """The server, as it is started each time."""
        words = [self.program, "keep", self.house, f"{self.folder}/journal", "--port", str(self.server), "--status", str(self.status)]
        self.keep = subprocess.Popen(words, stdout=subprocess.DEVNULL, stderr=subprocess.DEVNULL)

    def is_up(self, state):
        """Whether the door says this of the server."""
        try:
            with urllib.request.urlopen(f"http://127.0.0.1:{self.metrics}/metrics", timeout=5) as answer:
                return f'haproxy_server_status{{proxy="allocd",server="allocd",state="{state}"}} 1' in answer.read().decode()
        except OSError:
            return False

    def close(self):
        for it in (self.proxy, self.keep):
            it.kill()
            it.wait()
