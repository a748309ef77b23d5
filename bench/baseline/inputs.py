#!/usr/bin/env python3
"""Big inputs for `allocd batch` and its peer, with right lengths and checksums.

  inputs.py KIND N [--seed S] > FILE        the house: bench.house

KIND      what one of the N is                                       messages, entries
trade     a trade of 100                                             1, 1
split     a trade of 100 and its split into two own parts            2, 2
giveup    trade, split with a given part, claim, a split of that     5, 5
          with a given part, claim
deep      a trade of 200 and 64 splits, each of the node before      65, 65
          into 1 lot and the rest: depth 64
wide      a trade of 100 and its split into 100 parts of 1 lot       2, 2
reversal  trade, split with a given part, claim, three consents and  12, 12
          two reversals, and the split again, with a repeat of the
          first reversal (a Repeated answer, no entry)
scatter   a trade, a split; when all N stand, each split is          4, 4
          initiated and reversed in shuffled order
refused   a split of a node that isn't there (no entry)              1, 0
noise     frames with a wrong checksum, then a heartbeat             2, 0

A history holds 1,000,000 entries: split 500000 fills it exactly.
"""
import argparse
import random
import sys

SOH = "\x01"


class Out:
    def __init__(self, to):
        self.to, self.buf, self.held = to, [], 0
        self.seq = {}
        self.frames = 0

    def raw(self, b):
        self.buf.append(b)
        self.held += len(b)
        self.frames += 1
        if self.held > 1 << 20:
            self.to.write(b"".join(self.buf))
            self.buf, self.held = [], 0

    def close(self):
        self.to.write(b"".join(self.buf))
        self.to.flush()

    def send(self, kind, firm, rest, bad=False):
        n = self.seq[firm] = self.seq.get(firm, 0) + 1
        body = (f"35={kind}|49={firm}|56=HSE|34={n}|52=20260302-09:00:00.000|{rest}"
                .replace("|", SOH).encode("latin-1"))
        head = b"8=FIXT.1.1\x019=%d\x01" % len(body) + body
        c = (sum(head) + bad) % 256
        self.raw(head + b"10=%03d\x01" % c)


def trade(o, ident, lots, firm="AAA", account="A1", instrument="ESZ6", side=1):
    o.send("AE", "HSE", f"571={ident}|55={instrument}|32={lots}|552=1|54={side}|453=1|448={firm}|447=D|452=4|1={account}|")


def own(a, lots):
    return f"79={a}|80={lots}|"


def given(f, lots, a="X"):
    return f"79={a}|80={lots}|539=1|524={f}|525=D|538=4|"


def split(o, firm, ident, node, parts):
    o.send("J", firm, f"70={ident}|71=0|626={23}|72={node}|78={len(parts)}|" + "".join(parts))


def claim(o, firm, ident, node, account):
    o.send("J", firm, f"70={ident}|71=0|626=18|72={node}|78=1|79={account}|")


def life(o, firm, ident, what, entry):
    o.send("J", firm, f"70={ident}|71=6|626={ {'initiate': 20, 'reverse': 21, 'decline': 22}[what]}|72={entry}|")


def main():
    p = argparse.ArgumentParser(description=__doc__, formatter_class=argparse.RawDescriptionHelpFormatter)
    p.add_argument("kind")
    p.add_argument("n", type=int)
    p.add_argument("--seed", type=int, default=1)
    a = p.parse_args()
    o = Out(sys.stdout.buffer)
    globals()["make_" + a.kind](o, a.n, random.Random(a.seed))
    o.close()
    print(f"{a.kind} {a.n}: {o.frames} frames", file=sys.stderr)


def make_trade(o, n, r):
    for i in range(n):
        trade(o, f"T{i}", 100)


def make_split(o, n, r):
    for i in range(n):
        k = 2 * i + 1
        trade(o, f"T{i}", 100)
        split(o, "AAA", f"S{i}", f"{k}.0", [own("A1", 60), own("A2", 40)])


def make_giveup(o, n, r):
    for i in range(n):
        k = 5 * i + 1
        trade(o, f"T{i}", 100)
        split(o, "AAA", f"S{i}", f"{k}.0", [own("A1", 60), given("BBB", 40)])
        claim(o, "BBB", f"C{i}", f"{k + 1}.2", "B1")
        split(o, "BBB", f"S{i}", f"{k + 1}.2", [given("CCC", 40)])
        claim(o, "CCC", f"C{i}", f"{k + 3}.1", "C1")


def make_deep(o, n, r):
    for i in range(n):
        k = 65 * i + 1
        trade(o, f"T{i}", 200)
        node = f"{k}.0"
        for d in range(64):
            split(o, "AAA", f"S{i}-{d}", node, [own("A2", 1), own("A1", 199 - d)])
            node = f"{k + 1 + d}.2"


def make_wide(o, n, r):
    parts = [own("A2" if j % 2 else "A1", 1) for j in range(100)]
    for i in range(n):
        trade(o, f"T{i}", 100)
        split(o, "AAA", f"S{i}", f"{2 * i + 1}.0", parts)


def make_reversal(o, n, r):
    for i in range(n):
        k = 11 * i + 1
        trade(o, f"T{i}", 100)                                                            # k
        split(o, "AAA", f"S{i}", f"{k}.0", [own("A1", 60), given("BBB", 40)])             # k+1
        claim(o, "BBB", f"C{i}", f"{k + 1}.2", "B1")                                      # k+2
        life(o, "BBB", f"I{i}", "initiate", k + 2)                                        # k+3
        life(o, "AAA", f"I{i}", "initiate", k + 2)                                        # k+4
        life(o, "AAA", f"R{i}", "reverse", k + 2)                                         # k+5
        life(o, "AAA", f"R{i}", "reverse", k + 2)                                         # repeated
        life(o, "AAA", f"J{i}", "initiate", k + 1)                                        # k+6
        life(o, "AAA", f"V{i}", "reverse", k + 1)                                         # k+7
        split(o, "AAA", f"W{i}", f"{k}.0", [own("A1", 50), given("BBB", 50)])             # k+8
        claim(o, "BBB", f"D{i}", f"{k + 8}.2", "B2")                                      # k+9
        life(o, "BBB", f"E{i}", "initiate", k + 9)                                        # k+10


def make_scatter(o, n, r):
    for i in range(n):
        k = 2 * i + 1
        trade(o, f"T{i}", 100)
        split(o, "AAA", f"S{i}", f"{k}.0", [own("A1", 60), own("A2", 40)])
    order = list(range(n))
    r.shuffle(order)
    for i in order:
        life(o, "AAA", f"I{i}", "initiate", 2 * i + 2)
        life(o, "AAA", f"R{i}", "reverse", 2 * i + 2)


def make_refused(o, n, r):
    for i in range(n):
        split(o, "AAA", f"S{i}", "1.0", [own("A1", 60), own("A2", 40)])


def make_noise(o, n, r):
    for i in range(n):
        o.send("0", "AAA", "", bad=True)
        o.send("0", "AAA", "")


if __name__ == "__main__":
    main()
