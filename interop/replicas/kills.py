"""Kills, lost nodes, lost files, no room, alarms, TLS: what one etcd that is well has to bear."""
import hashlib
import os
import random
import re
import shutil
import signal
import subprocess
import time

from harness import HERE, Cluster, Machine, Trial, alive, case, contents, frame, free_port, page, room_for, serving, until

GAPS = {"server": 10, "sidecar": 10, "leader": 10, "machine": 20, "other": 10, "order": 12}  # seconds, three times what a quiet machine takes


def failing(load, name, kind, do):
    """Does something, and looks how long nobody was answered until all goes on."""
    time.sleep(random.uniform(0.5, 1.2))
    began = time.time()
    do()
    on = until(lambda: load.answers(began) > 0 and time.time() - began > 1.5 and load.answers(time.time() - 0.5) > 10)
    gap, most = load.longest(began), room_for(GAPS[kind])
    case(on and gap is not None and gap <= most, f"{name}: {gap if gap else 999:.2f} s without an answer, of {most:.0f} (load {os.getloadavg()[0]:.0f})")


def kills(trial, rounds=1):
    a, b = trial.machine("A", "kills").start(), trial.machine("B", "kills")
    until(a.serves)
    b.start()
    third = trial.watch("kills", "third")
    load, both = trial.load("kills", [a, b]), [a, b]
    until(lambda: trial.state("kills")[1] > 600_000)  # so that no journal ends within the first piece that is joined
    for _ in range(rounds):
        kills_of_one(trial, load, both)
        kills_of_machines(trial, load, both)
    load.end()
    entries, length = trial.state("kills")
    case(trial.agreed("kills", "third", entries) and third.poll() is None, f"the third machine agrees with all {entries} entries")
    case(until(lambda: a.kept() == b.kept() == trial.show("kills")), f"the journals of A, B and etcd are the same {length + 1} bytes")
    case(not a.laid_aside() and not b.laid_aside(), "A and B kept what they had, and fetched the tails")
    a.stop(signal.SIGTERM), b.stop(signal.SIGTERM)
    third.kill()
    trial.replayed("kills")


def kills_of_one(trial, load, both):
    cluster, one = trial.cluster, serving(both)
    failing(load, f"kill -9 of the server of {one.name}", "server", lambda: one.kill(one.server()))
    one = serving(both)
    failing(load, f"kill -9 of the sidecar of {one.name}", "sidecar", lambda: one.kill(one.process.pid))
    node = cluster.leader()
    failing(load, f"kill -9 of etcd's leader {node}", "leader", lambda: cluster.kill(node))
    cluster.up(node)
    until(cluster.well)


def kills_of_machines(trial, load, both):
    cluster, one = trial.cluster, serving(both)
    node = cluster.leader()

    def machine_gone():
        one.stopped = True
        cluster.kill(node)
        one.kill(one.server(), one.process.pid)

    failing(load, f"the machine {one.name} is gone, and etcd's leader {node} with it", "machine", machine_gone)
    cluster.up(node)
    until(cluster.well)
    follows = one.said().count("waits for")
    one.start()
    one.follows(follows + 1)
    one = serving(both)
    failing(load, f"{one.name} is stopped in order", "order", lambda: (setattr(one, "stopped", True), one.process.terminate()))
    until(lambda: not alive(one.process.pid))
    case("stopped with" in one.said(), f"{one.name}: {one.last()}")
    one.start()


def outages(trial):
    """One machine alone."""
    a = trial.machine("D", "outages").start(again=False)
    until(a.serves)
    refused_starts(trial, a)
    a.start(again=False)
    until(a.serves)
    load = trial.load("outages", [a])
    frozen, server = a.process.pid, a.server()
    os.kill(frozen, signal.SIGSTOP)
    case(until(lambda: not alive(server), room_for(45)), "a sidecar that is frozen under load: the server ends by itself")
    os.kill(frozen, signal.SIGKILL)
    a.process.wait()
    a.start()
    case(load.goes_on(), "and a start goes on")
    server, cluster = a.server(), trial.cluster
    cluster.kill("a"), cluster.kill("b")
    case(until(lambda: not alive(server), room_for(45)), "two nodes gone: the server ends")
    cluster.up("a"), cluster.up("b")
    case(load.goes_on(), "the nodes are there again: answers go on")
    load.end()
    a.stop(signal.SIGTERM)
    lost_files(trial, a)
    trial.replayed("outages")


def refused_starts(trial, a):
    second = Machine(trial, "D", "outages").start(again=False)
    second.ends()
    case("in use" in second.said(), "a second sidecar on the same file is refused")
    a.stop(signal.SIGTERM)
    other = f"{trial.room}/other.house"
    with open(other, "w") as it:
        it.write(contents(trial.house).decode() + "FIRM ZZZ\n")
    wrong = trial.machine("W", "outages", house=other).start(again=False)
    wrong.ends()
    case("isn't the house file" in wrong.said(), "another house file is refused")


def lost_files(trial, a):
    os.remove(a.journal)
    a.start(again=False)
    case(until(a.serves) and a.keeps(trial.show("outages")), f"a journal that was lost comes from etcd: {a.last()}")
    a.stop(signal.SIGTERM)
    with open(a.journal, "r+b") as it:
        it.seek(4000)
        it.write(b"X")
    wrong = contents(a.journal)[3_900:4_100]
    a.start(again=False)
    case(until(a.serves) and a.keeps(trial.show("outages")) and a.laid_aside(wrong), "what a journal with a byte changed has is laid aside, and etcd's comes")
    line = next((it for it in reversed(a.said().splitlines()) if "laid aside" in it), "")
    case("what etcd has" in line and "nobody" not in line, f"and it is told as what it is: {line[9:60]}")
    a.stop(signal.SIGTERM)
    before = a.kept()
    trial.cluster.output("etcdctl", "del", "--prefix", "/allocd/outages/")
    trial.tells("outages", "lost", "-")
    a.start(again=False)
    a.ends()
    case("has etcd lost it?" in a.said() and a.kept() == before, "a log that was lost: the start is refused, and the journal isn't cut")
    status, said = trial.word("adopt", trial.house, a.journal, "outages", env=a.env)
    case(status == 0 and trial.show("outages") == before, f"adopt begins the log with it: {said.strip()}")
    a.start(again=False)
    case(until(a.serves) and a.keeps(before) and a.keeps(trial.show("outages")), f"and a start serves it: {a.last()}")
    a.stop(signal.SIGTERM)


def put_book(cluster, book, journal, entries, house, at=0):
    """A book of these bytes, of which so many are there, as somebody might put it who has a key to etcd."""
    data = journal[:-1]
    head = b"%d %d forger %s" % (entries, len(data), hashlib.sha256(data).hexdigest().encode())
    pairs = [("house", contents(house)), ("piece/%012d" % at, data[at:]), ("writer", b"forger"), ("head", head)]
    cluster.put_at_once([(f"/allocd/{book}/{key}", value) for key, value in pairs])


def sealed(frames):
    """Frames with their seals made anew."""
    out = b""
    for it in frames:
        body = it.split(b"\x01", 2)[2][:-7]
        if b"35=0\x01" in body[:6]:
            body = re.sub(rb"112=[0-9a-f]{128}", b"112=" + hashlib.sha512(out).hexdigest().encode(), body)
        out += frame(body)
    return out


def alarms(trial, journal):
    """Books that aren't as they must be: of changed bytes, and of a history that the rules don't give."""
    frames = re.findall(rb"8=FIXT\.1\.1\x019=\d+\x01.*?\x0110=\d{3}\x01", journal, re.S)[:800]
    while b"\x0135=0\x01" not in frames[-1]:
        frames.pop()
    entries = sum(b"\x0135=0\x01" not in it and b"\x0135=A\x01" not in it for it in frames)
    trade = next(i for i, it in enumerate(frames) if b"\x0135=AE\x01" in it)
    wrong = [frame(it.split(b"\x01", 2)[2][:-7].replace(b"\x0132=", b"\x0132=1")) if i == trade else it for i, it in enumerate(frames)]
    refused = list(frames)
    refused[trade] = frame(refused[trade].split(b"\x01", 2)[2][:-7].replace(b"448=AAA", b"448=ZZZ"))
    true = b"".join(frames)
    put_book(trial.cluster, "true", true + b"\0", entries, trial.house)
    watch = trial.watch("true", "w")
    case(trial.agreed("true", "w", entries), f"a true book: the watch agrees with {entries} entries")
    trial.cluster.put("/allocd/true/head", f"{entries} {len(true)} forger {0:064d}")
    alarm(trial, "true", watch, "the digest of")
    for book, data, words in [("seal", b"".join(wrong), "the seal at byte"), ("rules", sealed(refused), "isn't what the rules give")]:
        put_book(trial.cluster, book, data + b"\0", entries, trial.house)
        alarm(trial, book, trial.watch(book, "w"), words)


def alarm(trial, book, watch, words):
    ended = until(lambda: watch.poll() is not None)
    said = contents(watch.log).decode()
    case(ended and watch.returncode == 3 and words in said and words in trial.cluster.get(f"/allocd/{book}/alarm/w"), f"an alarm of {book}: {said.strip()[:110]}")


def no_room(trial):
    """A cluster of its own, whose quota is reached."""
    small = Trial(f"{trial.room}/small", trial.house, Cluster(f"{trial.room}/small/etcd", MORE="--quota-backend-bytes=8000000", QUOTA="8000000"))
    env, run = small.cluster.env, small.cluster.output
    try:
        size = lambda: max((int(it) for it in re.findall(r'"dbSize":(\d+)', run("etcdctl", "endpoint", "status", "--write-out=json"))), default=0)
        none = dict(stdout=subprocess.DEVNULL, stderr=subprocess.DEVNULL)
        fill = lambda name, count: subprocess.run(["etcdctl", "put", f"/other/{name}"], env=env, input=os.urandom(count), **none)
        for i in range(40):  # what else is there
            if size() < 5_200_000:
                fill(i, 200_000)
        a = small.machine("N", "room").start(again=False)
        until(a.serves)
        load = small.load("room", [a], PAUSE="0.1")
        for i in range(200):  # and it grows, from four fifths to the end in more than the two seconds between two looks
            if a.process.poll() is None:
                fill(f"more{i}", 100_000)
                time.sleep(0.4)
        case(a.ends() and "etcd has no room" in a.said(), "no room in etcd: the server ends, and says so")
        told = next((it for it in a.said().splitlines() if "% of its quota" in it or "has an alarm" in it), None)
        case(told, f"it is told before: {told}")
        run("etcdctl", "del", "--prefix", "/other/")
        revision = re.search(r'"revision":(\d+)', run("etcdctl", "endpoint", "status", "--write-out=json"))[1]
        run("etcdctl", "compact", "--physical", revision), run("etcdctl", "defrag"), run("etcdctl", "alarm", "disarm")
        a.start()
        case(load.goes_on(), "compacted, defragmented, disarmed: a start goes on")
        load.end()
        case(until(lambda: not small.cluster.keys("/allocd/room/alarm/")), "and the alarm is over")
        a.stop(signal.SIGTERM)
        small.replayed("room")
    finally:
        small.stop()


class Secured:
    """A node that asks clients and peers for certificates, each by an authority of its own."""

    def __init__(self, trial):
        self.keys, self.port, self.peer = f"{trial.room}/keys", free_port(), free_port()
        self.makes("node=127.0.0.1", "root", "es", "es-watch", "other")
        url, own = f"https://127.0.0.1:{self.port}", lambda name: f"{self.keys}/{name}"
        words = ["etcd", "--name", "t", "--data-dir", f"{trial.room}/tls", "--listen-client-urls", url, "--advertise-client-urls", url, "--logger", "zap",
                 "--cert-file", own("node.pem"), "--key-file", own("node.key"), "--trusted-ca-file", own("ca.pem"), "--client-cert-auth",
                 "--listen-peer-urls", f"https://127.0.0.1:{self.peer}", "--initial-advertise-peer-urls", f"https://127.0.0.1:{self.peer}",
                 "--initial-cluster", f"t=https://127.0.0.1:{self.peer}", "--peer-cert-file", own("node.peer.pem"), "--peer-key-file", own("node.peer.key"),
                 "--peer-trusted-ca-file", own("peer-ca.pem"), "--peer-client-cert-auth"]
        self.node = subprocess.Popen(words, stdout=subprocess.DEVNULL, stderr=subprocess.DEVNULL)
        self.env, self.url = trial.cluster.env, url

    def makes(self, *names, days=400):
        """Makes certificates, good for so many days."""
        subprocess.run([f"{HERE}/keys", self.keys, *names], env=dict(os.environ, DAYS=str(days)), check=True)

    def of(self, who):
        """The environment of a user."""
        files = [f"{self.keys}/{it}" for it in ("ca.pem", f"{who}.pem", f"{who}.key")]
        names = ("ETCDCTL_CACERT", "ETCDCTL_CERT", "ETCDCTL_KEY")
        return dict(self.env, ETCD=f"127.0.0.1:{self.port}", TLS=",".join(files), ETCDCTL_ENDPOINTS=self.url, **dict(zip(names, files)))

    def ctl(self, who, *words):
        return subprocess.run(words, env=self.of(who), stdout=subprocess.PIPE, stderr=subprocess.STDOUT, text=True)

    def peer_takes(self, name):
        """Whether the port of peers takes a certificate."""
        words = ["curl", "--http1.1", "-s", "-o", "/dev/null", "-w", "%{http_code}", "-k", "--cert", f"{self.keys}/{name}.pem", "--key", f"{self.keys}/{name}.key",
                 f"https://127.0.0.1:{self.peer}/members"]
        return subprocess.run(words, stdout=subprocess.PIPE, text=True).stdout == "200"


def expired(trial, node):
    """A certificate that is over, the user's or the node's: it is told, and with a new one all goes on."""
    for who, name in (("user", "es"), ("node", "node=127.0.0.1")):
        node.makes(name, days=0)
        until(lambda: subprocess.run(["openssl", "x509", "-in", f"{node.keys}/{name.split('=')[0]}.pem", "-noout", "-checkend", "0"], stdout=subprocess.DEVNULL).returncode)
        a = trial.machine(f"X-{who}", "es", env=node.of("es")).start(again=False)
        case(a.ends() and "certificate" in a.last() and "expired" in a.last(), f"a {who}'s certificate is over: {a.last()[-110:]}")
        node.makes(name)
        a.start(again=False)
        case(until(a.serves), f"and with a new one it goes on: {a.last()[:60]}")
        a.stop(signal.SIGTERM)


def secured(trial):
    """Certificates, with a role for each book and for its watch."""
    node = Secured(trial)
    try:
        until(lambda: node.ctl("root", "etcdctl", "endpoint", "health").returncode == 0)
        made = [node.ctl("root", f"{HERE}/role", it) for it in ("es", "other")]
        case(all(it.returncode == 0 for it in made), f"roles of two books: {made[-1].stdout.splitlines()[-1:]}")
        takes = [node.peer_takes(it) for it in ("node.peer", "es", "root")]
        case(takes == [True, False, False], "the port of peers takes a node's certificate, and no user's")
        port = free_port()
        a = trial.machine("T", "es", "--metrics", str(port), env=node.of("es")).start(again=False)
        case(until(a.serves), f"TLS and a role: {a.last()}")
        case(until(lambda: "allocd_sidecar_certificate_days 399\n" in page(port)), "which is shown to be good for 399 days")
        load = trial.load("es", [a], **{it: node.of("es")[it] for it in ("ETCD", "TLS")})
        case(load.goes_on(), "firms are answered")
        load.end()
        b = trial.machine("U", "es", env=node.of("other")).start(again=False)
        case(b.ends() and "permission denied" in b.said(), "another book's user has no part in the book")
        c = trial.machine("V", "nq", env=node.of("es")).start(again=False)
        case(c.ends() and "permission denied" in c.said(), "the book's user has no part in another book")
        nobody, began = dict(trial.cluster.env, ETCD=f"127.0.0.1:{node.port}"), time.monotonic()
        took = trial.word("show", "es", env=nobody)[0] == 1 and time.monotonic() - began
        case(took and took < 60, f"nobody reads it without a certificate, and who tries is told after {took:.0f} s")
        watch = trial.watch("es", "w", env=node.of("es-watch"))
        done = lambda: node.ctl("root", "etcdctl", "get", "--print-value-only", "/allocd/es/done/w").stdout.strip()
        entries = trial.word("state", "es", env=node.of("es"))[1].split()[0]
        case(until(lambda: done() == entries), f"the watch's user watches it: {entries} entries")
        denied = [node.ctl("es-watch", "etcdctl", "put", f"/allocd/es/{it}", "x").returncode for it in ("head", "writer", "lock", "piece/000000000000")]
        case(all(denied), "and can put neither head nor writer, lock or piece")
        watch.kill()
        a.stop(signal.SIGTERM)
        far = trial.machine("F", "es", env=trial.line(50, nodes={"t": f"127.0.0.1:{node.port}"}, env=node.of("es"))).start(again=False)
        case(until(far.serves), f"TLS to a node that is 50 ms away: {far.last()}")
        far.stop(signal.SIGTERM)
        expired(trial, node)
        trial.replayed("es")
    finally:
        node.node.kill()
        shutil.rmtree(f"{trial.room}/tls", ignore_errors=True)
