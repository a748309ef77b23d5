"""Clients of the server in the machine of checks/power-cuts, which note in the record of its disk what they are told."""
import socket

from fix import FRAME, body_of, message

LOGON = "98=0|108=0|1137=9|"
TRADE = "|55=ESZ6|32=100|552=1|54=1|453=1|448=AAA|447=D|452=4|1=A1|"
PARTS = "71=0|626=23|78=100|" + "79=A1|80=1|" * 100
WINDOWS = [1, 8, 48, 48]
SPLIT = 8  # the firm splits one in so many of its trades


class Caller:
    """A connection, which has logged on. What it is told goes into the record as it comes."""

    def __init__(self, turns, port, firm, record):
        self.turns, self.firm, self.record = turns, firm, record
        self.held, self.number, self.answers, self.is_open = b"", 0, [], True
        self.socket = socket.create_connection(("127.0.0.1", port))
        turns.watch(self.socket, self.take, 0)
        self.send("A", LOGON)

    def send(self, kind, rest):
        self.number += 1
        try:
            self.socket.sendall(message(kind, self.firm, self.number, rest))
        except OSError:
            self.close()

    def trade(self, name):
        self.send("AE", f"571={name}{TRADE}")

    def take(self):
        try:
            piece = self.socket.recv(65_536)
        except OSError:
            piece = b""
        if not piece:
            return self.close()
        self.held += piece
        behind = 0
        for it in FRAME.finditer(self.held):
            behind = it.end()
            self.hear(dict(pair.split("=", 1) for pair in reversed(body_of(it[0]).split("|")[:-1])))
        self.held = self.held[behind:]

    def hear(self, fields):
        """Notes an answer that accepts a call, and a report."""
        if fields["35"] == "AR" and fields["939"] == "0":
            self.told(int(fields["58"].split()[1]), fields["571"])
        elif fields["35"] == "P" and fields["87"] != "1":
            self.told(int(fields["793"]), fields["70"])
        elif fields["35"] == "AS":
            self.record.add("told", int(fields["755"]), 0, None)

    def told(self, number, name):
        self.answers.append((number, name))
        self.record.add("told", number, 0, (self.firm, name))

    def close(self):
        if self.is_open:
            self.is_open = False
            self.turns.forget(self.socket)
            self.socket.close()


class House(Caller):
    """The house, which enters trades, so many without an answer."""

    def __init__(self, load, name, window):
        super().__init__(load.turns, load.port, "HSE", load.record)
        self.load, self.name, self.window, self.sent = load, name, window, 0

    def told(self, number, name):
        super().told(number, name)
        self.load.count += 1
        self.go_on()

    def go_on(self):
        while self.is_open and not self.load.is_paused and self.sent < len(self.answers) + self.window:
            self.trade(f"{self.name}-{self.sent}")
            self.sent += 1


class Firm(Caller):
    """A firm, which hears of its trades and splits some of them into a hundred parts."""

    def __init__(self, load, name):
        super().__init__(load.turns, load.port, "AAA", load.record)
        self.load, self.name = load, name

    def hear(self, fields):
        super().hear(fields)
        if fields["35"] == "AS" and fields["794"] == "9" and int(fields["755"]) % SPLIT == 0 and not self.load.is_paused:
            self.send("J", f"70={self.name}-{fields['755']}|72={fields['72']}|{PARTS}")


class Load:
    """The clients of one life of the server, and how many trades were told."""

    def __init__(self, turns, port, record, life):
        self.turns, self.port, self.record, self.count, self.is_paused = turns, port, record, 0, False
        self.houses = [House(self, f"{life}-{i}", window) for i, window in enumerate(WINDOWS)]
        self.firm = Firm(self, f"{life}-s")
        self.go_on()

    def pause(self):
        self.is_paused = True

    def go_on(self):
        self.is_paused = False
        for it in self.houses:
            it.go_on()

    def close(self):
        for it in [*self.houses, self.firm]:
            it.close()
