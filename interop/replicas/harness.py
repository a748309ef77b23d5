"""What `run` and its cases share: a cluster of etcd, machines with a sidecar each, honest firms, a line that is slow, and the count.

Nothing here waits for a time alone: each wait is for something to become so, with a bound of three times what a quiet machine takes and more. Where
a bound itself is judged, as of a takeover, `room_for` gives it room where the machine is busy.
"""
import base64
import http.client
import json
import os
import random
import re
import shutil
import signal
import socket
import subprocess
import sys
import threading
import time

HERE = os.path.dirname(os.path.abspath(__file__))
TOP = os.path.dirname(os.path.dirname(HERE))
ALLOCD = os.environ.setdefault("ALLOCD", f"{TOP}/crates/allocd/out/allocd")
PATIENCE = 90  # seconds for what takes some on a quiet machine
GIVEN = set()  # ports, and digits of ports


def free_base():
    """Three digits of ports of which none is taken."""
    while True:
        base = random.randrange(200, 320)
        if base in GIVEN:
            continue
        try:
            for i in (1, 2, 3):
                for j in (0, 1):
                    socket.create_server(("127.0.0.1", base * 100 + i * 10 + j)).close()
            GIVEN.add(base)
            return str(base)
        except OSError:
            pass


def free_port():
    """A port that nobody has, and that was given to nobody here."""
    while True:
        with socket.socket() as probe:
            probe.bind(("127.0.0.1", 0))
            port = probe.getsockname()[1]
        if port not in GIVEN:
            GIVEN.add(port)
            return port


def until(what, seconds=PATIENCE):
    """Whether it becomes so within so many seconds."""
    end = time.monotonic() + seconds
    while time.monotonic() < end:
        if what():
            return True
        time.sleep(0.05)
    return False


def room_for(seconds):
    """A bound, with room for a machine that is busy: up to three times as much where more wants to run than there are cores."""
    return seconds * min(3.0, max(1.0, os.getloadavg()[0] / os.cpu_count()))


def alive(pid):
    try:
        with open(f"/proc/{pid}/stat") as it:
            return it.read().rsplit(")", 1)[1].split()[0] != "Z"
    except OSError:
        return False


def children(pid):
    found = []
    for task in os.listdir(f"/proc/{pid}/task") if os.path.isdir(f"/proc/{pid}/task") else []:
        try:
            with open(f"/proc/{pid}/task/{task}/children") as it:
                found += [int(it) for it in it.read().split()]
        except OSError:
            pass
    return found


def contents(path):
    with open(path, "rb") as it:
        return it.read()


def frame(body):
    text = b"8=FIXT.1.1\x019=%d\x01" % len(body) + body
    return text + b"10=%03d\x01" % (sum(text) % 256)


class Count:
    """The cases, and how many passed."""

    passed = failed = 0
    guard = threading.Lock()

    @classmethod
    def case(cls, well, text):
        with cls.guard:
            cls.passed, cls.failed = cls.passed + bool(well), cls.failed + (not well)
            print(f"{'well' if well else 'FAILED'}: {text}", flush=True)
        return well


case = Count.case


class Cluster:
    """Three nodes of etcd, and the environment of those who ask them."""

    def __init__(self, folder, **more):
        self.folder, self.base = folder, free_base()
        self.nodes = {name: f"127.0.0.1:{self.base}{i}0" for i, name in enumerate("abc", 1)}
        all_of_them = ",".join(self.nodes.values())
        self.env = dict(os.environ, BASE=self.base, ETCD=all_of_them, ETCDCTL_ENDPOINTS=all_of_them, ETCDCTL_API="3", **more)
        said = self.do("start", folder)
        if not self.leader():
            sys.exit(f"the nodes of etcd don't start: {said}")

    def output(self, *words, **more):
        """What a program says, and nothing where it takes too long."""
        try:
            return subprocess.run(words, env=self.env, stdout=subprocess.PIPE, stderr=subprocess.DEVNULL, text=True, timeout=PATIENCE, **more).stdout
        except subprocess.TimeoutExpired:
            return ""

    def do(self, *words):
        return self.output(f"{HERE}/cluster", *words)

    def kill(self, node):
        self.do("kill", node, self.folder)

    def up(self, node):
        self.do("up", node, self.folder)

    def well(self):
        """Whether all nodes answer, and one leads."""
        return subprocess.run(["etcdctl", "endpoint", "health"], env=self.env, stdout=subprocess.DEVNULL, stderr=subprocess.DEVNULL).returncode == 0

    def leader(self):
        """The node that leads, once one does."""
        said = []
        until(lambda: said.append(self.do("leader", self.folder).strip()) or said[-1])
        return said[-1]

    def stop(self):
        self.do("stop", self.folder)

    def get(self, key):
        return self.output("etcdctl", "get", "--print-value-only", key).strip()

    def put(self, key, value):
        subprocess.run(["etcdctl", "put", key], env=self.env, input=value.encode(), stdout=subprocess.DEVNULL, check=True)

    def put_at_once(self, pairs):
        """Puts keys and their values in one transaction."""
        text = lambda it: base64.b64encode(it).decode()
        puts = [{"requestPut": {"key": text(key.encode()), "value": text(value)}} for key, value in pairs]
        node = http.client.HTTPConnection(self.nodes[self.leader()], timeout=PATIENCE)
        node.request("POST", "/v3/kv/txn", json.dumps({"success": puts}))
        answer = node.getresponse()
        if answer.status != 200:
            sys.exit(f"etcd doesn't take a transaction: {answer.read()}")

    def keys(self, prefix):
        return self.output("etcdctl", "get", "--prefix", "--keys-only", prefix).split()


class Trial:
    """Where cases run: a folder, a house file, a cluster, and all that was started."""

    sidecar = model = ""

    def __init__(self, room, house, cluster):
        self.room, self.house, self.cluster, self.started = room, house, cluster, []

    def machine(self, name, book, *words, **more):
        made = Machine(self, name, book, *words, **more)
        self.started.append(made)
        return made

    def load(self, book, machines, **env):
        made = Load(self, book, machines, **env)
        self.started.append(made)
        until(lambda: os.path.exists(made.stamps) and os.path.getsize(made.stamps) > 2000)
        return made

    def watch(self, book, name, *words, env=None):
        """A watch, what it says at its `.log`."""
        path = f"{self.room}/{book}.{name}.watch"
        with open(path, "a") as log:
            made = subprocess.Popen([self.sidecar, "watch", book, name, *words], env=env or self.cluster.env, stderr=log)
        made.log = path
        self.started.append(made)
        return made

    def cable(self, milliseconds, kilobytes=0, nodes=None, env=None, count=""):
        """A line to the nodes: what passes it comes later, so many kilobytes a second in all. The environment of one who asks over it, and the process."""
        nodes = nodes or self.cluster.nodes
        ports = {name: free_port() for name in nodes}
        pairs = [f"127.0.0.1:{ports[name]}={it}" for name, it in nodes.items()]
        words = [f"{HERE}/delayed", str(milliseconds), *pairs]
        process = subprocess.Popen(words, env=dict(os.environ, RATE=str(kilobytes * 1000), COUNT=count))
        self.started.append(process)
        until(lambda: all(listens(it) for it in ports.values()))
        return dict(env or self.cluster.env, ETCD=",".join(f"127.0.0.1:{it}" for it in ports.values())), process

    def line(self, milliseconds, kilobytes=0, **more):
        """The environment of one who asks over such a line."""
        return self.cable(milliseconds, kilobytes, **more)[0]

    def state(self, book):
        """Entries and bytes of a book."""
        said = re.match(r"(-?\d+) entries, (\d+) bytes", self.cluster.output(self.sidecar, "state", book))
        return (int(said[1]), int(said[2])) if said else (-1, 0)

    def show(self, book, env=None):
        return subprocess.run([self.sidecar, "show", book], env=env or self.cluster.env, stdout=subprocess.PIPE, stderr=subprocess.DEVNULL).stdout

    def word(self, *words, env=None):
        """A word of the sidecar's own: its status, and what it says."""
        done = subprocess.run([self.sidecar, *words], env=env or self.cluster.env, stdout=subprocess.PIPE, stderr=subprocess.STDOUT, text=True)
        return done.returncode, done.stdout

    def agreed(self, book, name, entries):
        return until(lambda: self.cluster.get(f"/allocd/{book}/done/{name}") == str(entries))

    def tells(self, book, *words):
        """Adds a line to a book's trace: what the case itself has done to etcd."""
        with open(f"{self.room}/{book}.trace", "a") as it:
            it.write(" ".join(str(word) for word in words) + "\n")

    def replayed(self, book):
        """Has the model go through what the sidecars of a book had etcd do, and what they answered."""
        done = subprocess.run([self.model, "--replay", f"{self.room}/{book}.trace"], stdout=subprocess.PIPE, stderr=subprocess.STDOUT, text=True)
        case(done.returncode == 0, f"{book}: the model accepts {done.stdout.strip().splitlines()[-1] if done.stdout else 'nothing'}")

    def stop(self):
        for it in self.started:
            it.stop() if isinstance(it, Machine) else it.kill()
        self.cluster.stop()


def listens(port):
    try:
        socket.create_connection(("127.0.0.1", port), timeout=1).close()
        return True
    except OSError:
        return False


def page(port):
    """What is shown at a port."""
    done = subprocess.run(["curl", "-s", f"http://127.0.0.1:{port}/metrics"], stdout=subprocess.PIPE, text=True)
    return done.stdout


def is_of(kept, journal):
    """Whether this is a journal, and behind it no more than groups without entries, as each start puts one there."""
    behind = re.findall(rb"8=FIXT\.1\.1\x019=\d+\x01(35=[^\x01]+)\x01", kept[len(journal) - 1 :])
    return kept.startswith(journal[:-1]) and set(behind) <= {b"35=0"}


class Machine:
    """A folder, a port, and a sidecar that is started again where it ends, as its unit does."""

    def __init__(self, trial, name, book, *words, house=None, env=None):
        self.name, self.port, self.folder = name, free_port(), f"{trial.room}/{book}-{name}"
        self.env = dict(env or trial.cluster.env, TRACE=f"{trial.room}/{book}.trace")
        os.makedirs(self.folder, exist_ok=True)
        self.journal, self.log = f"{self.folder}/{book}", open(f"{self.folder}/log", "a+")
        self.words = [trial.sidecar, "run", house or trial.house, self.journal, book, "--port", str(self.port), *words]
        self.process, self.stopped, self.starts, self.guard = None, False, 0, threading.Lock()

    def begin(self):
        self.process = subprocess.Popen(self.words, env=self.env, stdout=subprocess.DEVNULL, stderr=self.log)

    def start(self, again=True):
        """Starts it; `again`: and whenever it ends."""
        self.stopped, self.starts = not again, self.starts + 1
        self.begin()
        if again:
            threading.Thread(target=self.keep, args=[self.starts], daemon=True).start()
        return self

    def keep(self, number):
        while not self.stopped and self.starts == number:
            self.process.wait()
            time.sleep(0.2)
            with self.guard:
                if not self.stopped and self.starts == number:
                    self.begin()

    def server(self):
        return next(iter(children(self.process.pid)), None)

    def kill(self, *pids, how=signal.SIGKILL):
        for pid in pids:
            try:
                if pid:
                    os.kill(pid, how)
            except ProcessLookupError:
                pass

    def stop(self, how=signal.SIGKILL):
        with self.guard:
            self.stopped = True
        if not self.process:
            return
        server = self.server()
        if alive(self.process.pid):
            self.kill(self.process.pid, how=signal.SIGCONT)
            self.process.send_signal(how)
            self.process.wait(PATIENCE)
        until(lambda: not server or not alive(server), 15)

    def ends(self):
        """Whether it ends by itself."""
        return until(lambda: self.process.poll() is not None)

    def said(self):
        with open(self.log.name) as it:
            return it.read()

    def last(self):
        """The last line that the sidecar itself says."""
        return next((it for it in reversed(self.said().splitlines()) if it.startswith("sidecar: ")), "nothing")

    def says(self, words, times=1):
        return until(lambda: self.said().count(words) >= times)

    def serves(self):
        return bool(self.process and alive(self.process.pid) and self.server() and listens(self.port))

    def follows(self, times=1):
        return self.says("waits for", times)

    def follows_now(self):
        """Whether it comes to follow, and hasn't served since."""
        return until(lambda: self.said().rfind("waits for") > self.said().rfind("connections are taken"))

    def kept(self):
        """What counts of its journal, and a zero, as `show` gives it."""
        return contents(self.journal).split(b"\0", 1)[0] + b"\0"

    def keeps(self, journal):
        return is_of(self.kept(), journal)

    def laid_aside(self, wrong=b""):
        """The files that it has laid aside; where it is asked for bytes, also as an end that was cut off, those that have these."""
        kinds = (".old", ".cut") if wrong else (".old",)
        return [it for it in os.listdir(self.folder) if it.endswith(kinds) and wrong in contents(f"{self.folder}/{it}")]


class Load:
    """Honest firms at some machines, what they were told, and the gaps between answers."""

    def __init__(self, trial, book, machines, **env):
        self.stamps, self.told = f"{trial.room}/{book}.stamps", open(f"{trial.room}/{book}.told", "w+")
        self.book, ports = book, ",".join(str(it.port) for it in machines)
        words = [f"{HERE}/firms", ports, trial.house, self.stamps, trial.sidecar, "show", book]
        self.process = subprocess.Popen(words, env=dict(trial.cluster.env, **env), stdout=self.told, stderr=self.told)

    def moments(self):
        with open(self.stamps) as it:
            return [float(line) for line in it if line.endswith("\n")]

    def answers(self, since):
        return sum(it > since for it in self.moments())

    def goes_on(self, most=PATIENCE):
        """Whether answers come from now on."""
        began = time.time()
        return until(lambda: self.answers(began) > 10, most)

    def longest(self, since):
        """The longest gap that ends after this moment."""
        moments = sorted(it for it in self.moments() if it > since - 1)
        return max((b - a for a, b in zip(moments, moments[1:]) if b > since), default=None)

    def kill(self):
        self.process.kill()

    def end(self):
        """Ends it, and has all that was told compared with the journal."""
        self.process.terminate()
        try:
            status = self.process.wait(180)
        except subprocess.TimeoutExpired:
            status = None
        self.told.seek(0)
        case(status == 0, f"{self.book}: {self.told.read().strip()}")


def serving(machines):
    """The machine that serves, once one does."""
    until(lambda: any(it.serves() for it in machines))
    return next((it for it in machines if it.serves()), machines[0])


def made_house(path, more=""):
    """A house file whose agreement is never used up."""
    with open(path, "w") as it:
        it.write(re.sub(r"(AGREEMENT AAA BBB \d+) \d+", r"\1 10000000000000", contents(f"{TOP}/examples/rows.house").decode()) + more)


def programs(room):
    """Builds the sidecar and the model, where SIDECAR and MODEL don't name them."""
    for name, folder in (("sidecar", "."), ("model", "model")):
        given = os.environ.get(name.upper())
        if not given:
            subprocess.run([f"{HERE}/build", f"{room}/{name}", folder], check=True)
        setattr(Trial, name, given or f"{room}/{name}")


def lacks():
    """What isn't there that the cases need."""
    found = [it for it in ("etcd", "etcdctl", "setpriv", "openssl", "go") if not shutil.which(it)]
    return found if os.access(ALLOCD, os.X_OK) else [*found, ALLOCD]
