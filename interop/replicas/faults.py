"""Cases of the faults that lose or that hang: an etcd that went back, an adoption that is broken off, one bad disk, what stands still, a person's word, a
node that doesn't answer, slow lines, a watch's own trouble, and long house files."""
import base64
import hashlib
import http.client
import json
import os
import re
import signal
import socket
import subprocess
import sys
import time
from concurrent.futures import ThreadPoolExecutor

from harness import ALLOCD, HERE, PATIENCE, Cluster, Machine, Trial, alive, case, children, contents, frame, free_port, is_of, made_house, page, room_for, serving, until
from kills import put_book

sys.path.insert(1, os.path.dirname(HERE))
import session

HUNG = 15  # seconds, after which another machine answers
COVERED = 2  # seconds, after which nothing more is written behind the last call


def pair(trial, book, *words, **more):
    """Two machines, of which the first one serves, and the second one follows."""
    a, b = trial.machine("A", book, *words, **more).start(), trial.machine("B", book, *words, **more)
    until(a.serves)
    b.start()
    b.follows()
    return a, b


def back(trial):
    """An etcd that is put back to a snapshot, under two machines that know more, firms that were told more, and a watch that agreed to more."""
    own = Trial(f"{trial.room}/back", trial.house, Cluster(f"{trial.room}/back/etcd"))
    try:
        a, b = pair(own, "back")
        load, memory = own.load("back", [a, b], PAUSE="0.05"), f"{own.room}/memory"
        watch = own.watch("back", "c", "--memory", memory)
        snapshot, before = f"{own.room}/snapshot", own.state("back")[0]
        one = dict(own.cluster.env, ETCDCTL_ENDPOINTS=own.cluster.nodes["a"])
        subprocess.run(["etcdctl", "snapshot", "save", snapshot], env=one, stdout=subprocess.DEVNULL, stderr=subprocess.DEVNULL, check=True)
        raised(own.cluster, 4_000)  # so that what is seen from now on is later than all that comes soon after the snapshot is back
        until(lambda: own.state("back")[0] > before + 100)
        until(lambda: os.path.exists(memory) and int(contents(memory).split()[0]) > before + 50)
        went_back(own, a, b, watch, snapshot, load)
    finally:
        own.stop()


def raised(cluster, count):
    """Has etcd's revision rise by so many, by a key of somebody else."""
    put = json.dumps({"key": base64.b64encode(b"/other").decode(), "value": base64.b64encode(b"x").decode()})
    host, port = cluster.nodes[cluster.leader()].split(":")

    def some(_):
        node = http.client.HTTPConnection(host, int(port), timeout=PATIENCE)
        for _ in range(count // 32):
            node.request("POST", "/v3/kv/put", put)
            node.getresponse().read()

    with ThreadPoolExecutor(32) as pool:
        list(pool.map(some, range(32)))


def went_back(own, a, b, watch, snapshot, load):
    own.cluster.stop()
    watch.kill()
    until(lambda: not a.server() and not b.server())
    kept = [it.kept() for it in (a, b)]
    own.cluster.do("restore", snapshot, own.cluster.folder)
    own.cluster.do("start", own.cluster.folder)
    own.tells("back", "restored", own.cluster.get("/allocd/back/writer"), *own.state("back"))
    both = until(lambda: all("less than was told" in it.said() for it in (a, b)))
    case(both, f"an etcd that went back is refused: {a.last()[:150]}")
    if not both:
        return
    starts, began = a.said().count("less than was told"), time.time()
    more = until(lambda: a.said().count("less than was told") >= starts + 6)
    case(more and time.time() - began > 5, f"again and again, but slower: six starts in {time.time() - began:.1f} s")
    case(not a.serves() and not b.serves(), "and nobody serves")
    later = [it.kept() for it in (a, b)]
    case(all(new == old for new, old in zip(later, kept)), "no byte of the journals is cut")
    again = own.watch("back", "c", "--memory", f"{own.room}/memory")
    case(until(lambda: again.poll() == 3) and "agreed to" in contents(again.log).decode(), f"the watch rings: {contents(again.log).decode().strip()[-120:]}")
    a.stop(), b.stop()
    longest = max((a, b), key=lambda it: len(it.kept()))
    status, said = own.word("adopt", own.house, longest.journal, "back", env=longest.env)
    case(status == 0, f"adopt, where the whole journal is: {said.strip()}")
    said = {it.name: (it.said().count("waits for"), it.said().count("less than was told")) for it in (a, b)}
    a.start(), b.start()
    one = serving([a, b])
    other = b if one is a else a
    followed, refused = said[other.name]
    follows = other.follows(followed + 1) and other.said().count("less than was told") == refused
    case(follows, f"{one.name} serves, and {other.name} follows: {other.last()[:110]}")
    case(load.goes_on(), "and firms are answered again")
    load.end()
    again = own.watch("back", "c", "--memory", f"{own.room}/memory")
    agreed = own.agreed("back", "c", own.state("back")[0])
    case(agreed and until(lambda: not own.cluster.keys("/allocd/back/alarm/")), "and the watch agrees: no alarm is left")
    again.kill()
    own.replayed("back")


def adoption(trial, journal):
    """An adoption over a slow line, which is killed; the other machine has another, full journal, and one has none."""
    a, b = trial.machine("A", "adopted"), trial.machine("B", "adopted")
    for it in (a, b):
        with open(it.journal, "wb") as file:
            file.write(journal)
    slow = dict(trial.line(1, 200), TRACE=a.env["TRACE"])
    process = subprocess.Popen([trial.sidecar, "adopt", trial.house, a.journal, "adopted"], env=slow, stderr=subprocess.DEVNULL)
    until(lambda: os.path.exists(a.env["TRACE"]) and b"marked" in contents(a.env["TRACE"]))
    trial.started.append(process)
    process.kill()
    process.wait()
    free = lambda: until(lambda: not trial.cluster.get("/allocd/adopted/lock"))
    free()
    case(not trial.cluster.get("/allocd/adopted/head"), "an adoption that was killed has left no head")
    c = trial.machine("C", "adopted").start(again=False)
    case(c.ends() and "an adoption isn't over" in c.said(), f"an empty machine doesn't serve: {c.last()[:90]}")
    b.start(again=False)
    case(b.ends() and b.kept() == journal, f"nor does another one cut its journal: {b.last()[:90]}")
    leased(trial, "/allocd/adopted/lock", "one who is gone", 8)
    status, said = trial.word("adopt", trial.house, b.journal, "adopted", env=b.env)
    case("has the lock: up to" in said, "an adoption waits for the lock of one who is gone")
    case(status == 0 and trial.show("adopted") == journal, f"begun anew it is whole: {said.strip().splitlines()[-1]}")
    c.start()
    case(until(c.serves) and c.keeps(journal), "and the empty machine serves all of it")
    other = f"{trial.room}/other-journal"
    with open(other, "wb") as file:
        file.write(journal[:300])
    c.stop(signal.SIGTERM)
    free()
    status, said = trial.word("adopt", trial.house, other, "adopted")
    case(status == 1 and "is no whole journal" in said, f"what isn't a whole journal is refused: {said.strip()[:100]}")
    trial.replayed("adopted")


def extension(trial):
    """A book that two machines served goes on under a house file that has more: extended on one of them, adopted under another name, and served."""
    a, b = pair(trial, "day")
    load = trial.load("day", [a, b], PAUSE="0.02")
    until(lambda: trial.state("day")[0] > 200)
    load.end()
    a.stop(signal.SIGTERM)
    b.stop(signal.SIGTERM)
    entries, larger = trial.state("day")[0], f"{trial.room}/larger.house"
    made_house(larger, "FIRM DDD\nACCOUNT DDD X\n")
    more = f"{trial.room}/extended-journal"
    done = subprocess.run([ALLOCD, "extend", trial.house, a.journal, larger, more], stdout=subprocess.PIPE, stderr=subprocess.STDOUT, text=True)
    case(done.returncode == 0, f"a book of {entries} entries is extended: {done.stdout}")
    status, said = trial.word("adopt", larger, more, "day")
    case(status == 1, f"under its old name it isn't adopted: {said.strip()[:100]}")
    status, said = trial.word("adopt", larger, more, "day-2", env=dict(trial.cluster.env, TRACE=f"{trial.room}/day-2.trace"))
    case(status == 0 and trial.state("day-2")[0] == entries, f"under another it is, whole: {said.strip().splitlines()[-1][:100]}")
    c, d = pair(trial, "day-2", house=larger)
    case(c.keeps(trial.show("day-2")), "an empty machine serves all of it")
    with socket.create_connection(("127.0.0.1", c.port), timeout=PATIENCE) as it:
        it.sendall(frame(b"35=A|49=DDD|56=HSE|34=1|52=20260302-09:00:00|98=0|108=30|1137=9|".replace(b"|", b"\x01")))
        case(b"\x0135=A\x01" in it.recv(1 << 16), "and the new firm logs on")
    own = Trial(trial.room, larger, trial.cluster)
    own.started = trial.started
    load = own.load("day-2", [c, d], PAUSE="0.02")
    case(until(lambda: own.state("day-2")[0] > entries + 20), "and the firms go on")
    load.end()
    c.stop(signal.SIGTERM)
    d.stop(signal.SIGTERM)
    trial.replayed("day-2")


def roll(trial):
    """A day's end: what waits for a decision goes on in a new book, rolled and adopted on one machine, served by both by its name."""
    own = Trial(trial.room, opened_house(f"{trial.room}/opened.house"), trial.cluster)
    own.started = trial.started
    a, b = pair(own, "tonight")
    load = own.load("tonight", [a, b], PAUSE="0.02")
    until(lambda: own.state("tonight")[0] > 200)
    load.end()
    live = [1, 2, *left_open(a.port)]  # the first two are the house file's
    a.stop(signal.SIGTERM)
    b.stop(signal.SIGTERM)
    old, (c, d) = a.kept(), (own.machine(it, "tomorrow", "--", "--book", "tomorrow", "--ask-book") for it in "AB")
    words = ["roll", own.house, a.journal, own.house, c.journal, "--open", "--map", f"{c.journal}.map"]
    done = subprocess.run([ALLOCD, *words], stdout=subprocess.PIPE, stderr=subprocess.STDOUT, text=True)
    case(done.returncode == 0, f"a book of {own.state('tonight')[0]} entries is rolled: {done.stdout.strip()}")
    numbers = mapped(f"{c.journal}.map")
    case([*numbers.items()] == [(it, new) for new, it in enumerate(live, 1)], f"the map has terms, and trades with an offer: {numbers}")
    retired = f"{a.journal}.before"
    case(not os.path.exists(a.journal) and os.path.exists(retired) and contents(retired).startswith(old), "the old journal is .before")
    status, said = own.word("adopt", own.house, c.journal, "tonight")
    case(status == 1 and "doesn't begin" in said, f"under the old name the new one isn't adopted: {said.strip()[:100]}")
    status, said = own.word("adopt", own.house, c.journal, "tomorrow", env=c.env)
    case(status == 0 and own.state("tomorrow")[0] == len(live), f"under its own it is, whole: {said.strip().splitlines()[-1][:100]}")
    asked = {numbers[it]: entries_of(old).get(it) for it in live[2:] if it in numbers}
    served_by_name(own, [c, d], asked, [numbers.get(it) for it in (live[5], live[-1])])
    own.replayed("tonight"), own.replayed("tomorrow")


def opened_house(path):
    """A house file whose agreements are the first entries of its book."""
    made_house(path)
    text = contents(path)
    with open(path, "wb") as it:
        it.write(text.replace(b"GIVEUP 1", b"GIVEUP 2", 1))
    return path


def left_open(port):
    """Leaves three offers: alone, beside one that is claimed, and behind a claim that was undone. Gives what lives on of it, and terms."""
    house, giver, taker, third = firms = [session.Firm(("127.0.0.1", port), it) for it in ("HSE", "AAA", "BBB", "CCC")]
    live = [entered(house, "J", "agreed", session.agreed("CCC", "AAA", 50, 1000))]
    live.append(entered(third, "J", "raised", session.raised("BBB", 100)))
    for name, given in (("waits", 1), ("claimed", 2), ("undone", 1)):
        live.append(entered(house, "AE", name, session.trade("AAA", "A1", 10, "ESZ6")))
        parts = [session.part(10 - 2 * given, "A2"), *[session.part(2, taker="BBB")] * given]
        live.append(entered(giver, "J", name, session.split(f"{live[-1]}.0", *parts)))
        if name == "claimed":
            live.append(entered(taker, "J", name, session.claim(f"{live[-1]}.2", "B1")))
    claim = entered(taker, "J", "undone", session.claim(f"{live[-1]}.2", "B1"))
    for firm, command in ((giver, "consent"), (taker, "consent"), (taker, "reverse")):
        entered(firm, "J", command, session.on_entry(command, claim))
    for it in firms:
        it.leave()
    return live


def entered(firm, kind, id, fields):
    """The number of a command's entry; 0 where it isn't accepted."""
    try:
        said = firm.ask(kind, id, fields, PATIENCE)
    except session.Closed:
        return 0
    return said.count(793) or int(said.get(58).partition("entry ")[2] or 0)


def mapped(path):
    """The new number of each old one, in their order."""
    lines = contents(path).decode().split()[1:] if os.path.exists(path) else []
    return dict(tuple(map(int, it.split(","))) for it in lines)


def entries_of(journal):
    """Who asked for each entry of a journal, and by which id, by its number."""
    bodies = re.findall(rb"8=FIXT\.1\.1\x019=\d+\x01(.*?)\x0110=\d{3}\x01", journal, re.S)
    fields = [dict(it.split(b"=", 1) for it in body.split(b"\x01")) for body in bodies]
    return {int(it[b"34"]): (it[b"49"], it.get(b"70") or it[b"571"]) for it in fields if it[b"35"] in (b"J", b"AE")}


def served_by_name(trial, both, asked, offers):
    """Two machines serve a rolled book: both have what was asked, by its firms and ids, and no more. On each an offer is claimed."""
    for it, comes in zip(both, (Machine.serves, Machine.follows)):
        it.start()
        until(lambda: comes(it))
    kept = lambda: [trial.show("tomorrow"), *(it.kept() for it in both)]
    case(until(lambda: all(entries_of(it) == asked for it in kept())), f"both machines and etcd have the {len(asked)} entries of the map")
    refused = "5006 has to name the book" in refusal(both[0], "") and "another book" in refusal(both[0], "tonight")
    case(refused, "who doesn't name the new book isn't let in")
    for number, (it, offer) in enumerate(zip(both, offers), len(asked) + 3):
        until(it.serves)
        taker = session.Firm(("127.0.0.1", it.port), "BBB", book="tomorrow")
        claimed = entered(taker, "J", f"next-{offer}", session.claim(f"{offer}.2", "B1"))
        case(claimed == number, f"{it.name} serves it: BBB's claim of {offer}.2 is entry {claimed}")
        taker.leave()
        it.stop(signal.SIGTERM)


def refusal(machine, book):
    """Why a Logon that names this book, or none, isn't answered by another."""
    try:
        session.Firm(("127.0.0.1", machine.port), "BBB", book=book).connect()
        return "it is on"
    except session.Closed as why:
        return str(why)


def leased(trial, key, value, seconds):
    """Puts a key by a lease that nobody keeps."""
    lease = trial.cluster.output("etcdctl", "lease", "grant", str(seconds)).split()[1]
    trial.cluster.output("etcdctl", "put", f"--lease={lease}", key, value)


def joining(trial):
    """A byte changes on the disk of the machine that serves, before its pieces are joined. Gives the journal."""
    a, b = trial.machine("A", "joined").start(), trial.machine("B", "joined")
    until(a.serves)
    load = trial.load("joined", [a, b], PAUSE="0.01")  # pieces are joined from half a megabyte on: seconds after the change
    until(lambda: len(a.kept()) > 150_000)
    was = flipped(a.journal, 100_000)
    wrong = contents(a.journal)[100_000:100_200]  # a byte that has become a zero is where the file ends then
    found = lambda: "isn't what etcd has, between" in a.said()
    until(lambda: found() or trial.state("joined")[1] > 1_000_000, 10 * PATIENCE)  # on a slow disk it takes minutes to write so much
    line = next((it for it in a.said().splitlines() if "isn't what etcd has, between" in it), None)
    case(line, f"a file that isn't what is joined ends its machine: {line and line[-90:]}")
    aside = until(lambda: a.laid_aside(wrong))
    case(aside and load.goes_on(), "which goes on with what etcd has, and has laid aside what it had")
    until(lambda: trial.state("joined")[1] > 750_000, 10 * PATIENCE)
    load.end()
    entries, length = trial.state("joined")
    large = lambda: sum(y - x > 250_000 for x, y in zip(*(lambda it: (it, it[1:] + [length]))(offsets(trial))))
    case(until(lambda: large() >= 1), f"{length} bytes are {len(offsets(trial))} pieces, of which {large()} were joined")
    journal = trial.show("joined")
    case(a.keeps(journal) and journal[100_000] == was, "the book of joined pieces is the journal, without the changed byte")
    watch = trial.watch("joined", "w")
    case(trial.agreed("joined", "w", entries), "a watch that begins late agrees with it")
    watch.kill()
    a.stop(signal.SIGTERM)
    b.start()
    case(until(b.serves) and b.keeps(journal), "and an empty machine takes it over")
    b.stop(signal.SIGTERM)
    trial.replayed("joined")
    return journal


def flipped(path, at):
    """Changes a bit, and gives the byte as it was."""
    with open(path, "r+b") as it:
        it.seek(at)
        was = it.read(1)
        it.seek(at)
        it.write(bytes([was[0] ^ 1]))
    return was[0]


def offsets(trial):
    return sorted(int(it.rsplit("/", 1)[1]) for it in trial.cluster.keys("/allocd/joined/piece/"))


def silent(one):
    """A machine whose sidecar stands still while no call comes: nobody tells its server that it may go on, so that it ends by itself."""
    time.sleep(COVERED)  # the empty group behind the last call's is a question of its own, which is waited for longer
    began, line = time.monotonic(), "no word came from the other machines"
    before = one.said().count(line)
    one.kill(one.process.pid, how=signal.SIGSTOP)
    ends = until(lambda: one.said().count(line) > before, room_for(12))
    case(ends, f"the server of {one.name}, whose sidecar stands still, ends after {time.monotonic() - began:.1f} s")
    one.kill(one.process.pid, how=signal.SIGCONT)


def hangs(trial, shim):
    """What stands still under load, of two machines: the server, the sidecar, both; and a sync that never returns."""
    a, b = pair(trial, "hangs")
    load = trial.load("hangs", [a, b], PAUSE="0.01")
    for what, pids in (("server", lambda it: [it.server()]), ("sidecar", lambda it: [it.process.pid]), ("server and sidecar", lambda it: [it.server(), it.process.pid])):
        one = serving([a, b])
        other = b if one is a else a
        other.follows_now()
        stopped = [it for it in pids(one) if it]
        hung(load, f"the {what} of {one.name} stands still", lambda: one.kill(*stopped, how=signal.SIGSTOP))
        case(until(other.serves), f"{other.name} serves")
        one.kill(*stopped, how=signal.SIGKILL if what == "server" else signal.SIGCONT)
        one.follows_now()
    load.end()
    silent(serving([a, b]))
    a.stop(signal.SIGTERM), b.stop(signal.SIGTERM)
    trial.replayed("hangs")
    cut_off(trial)
    if shim:
        hung_sync(trial, shim)


def cut_off(trial):
    """The line between the machine that serves and the nodes is cut, and mended."""
    env, line = trial.cable(0)
    a, b = trial.machine("A", "cut", env=env).start(), trial.machine("B", "cut")
    until(a.serves)
    b.start()
    b.follows()
    load, server, began = trial.load("cut", [a, b], PAUSE="0.01"), a.server(), time.monotonic()
    hung(load, "the line of A is cut", lambda: line.send_signal(signal.SIGSTOP))
    ends = until(lambda: not alive(server), room_for(12))
    case(ends, f"the server of A ends by itself, {time.monotonic() - began:.1f} s after that: {a.last()[:100]}")
    line.send_signal(signal.SIGCONT)
    case(a.follows_now() and b.serves(), "the line is there again: A follows")
    load.end()
    a.stop(signal.SIGTERM), b.stop(signal.SIGTERM)
    trial.replayed("cut")


def hung_sync(trial, shim):
    a = trial.machine("A", "sync", env=dict(trial.cluster.env, LD_PRELOAD=shim, HUNG_SYNC="1000")).start()
    b = trial.machine("B", "sync")
    until(a.serves)
    b.start()
    b.follows()
    load = trial.load("sync", [a, b], PAUSE="0.002")
    case(a.says("stands still"), f"a sync that never returns: {a.last()[:100]}")
    case(until(b.serves) and load.goes_on(), "and the other machine serves")
    gap = load.longest(load.moments()[0])
    case(gap <= room_for(HUNG), f"{gap:.1f} s without an answer, of {room_for(HUNG):.0f}")
    load.end()
    trial.replayed("sync")


def hung(load, name, do):
    """Does something, and looks after how many seconds firms are answered again."""
    began = time.time()
    do()
    until(lambda: (load.longest(began) or 0) > 2 and load.answers(time.time() - 1) > 10)
    gap = load.longest(began) or 999
    case(2 < gap <= room_for(HUNG), f"{name}: {gap:.1f} s without an answer, of {room_for(HUNG):.0f}")


def takeovers(trial):
    """A person's word has a machine take the book over while another serves: once for each word, also where two are told it at once."""
    a, b = pair(trial, "word")
    load = trial.load("word", [a, b])
    status, said = trial.word("takeover", f"{trial.room}/nowhere", "word")
    case(status == 1 and "no sidecar runs on" in said, f"a word where no sidecar runs is refused: {said.strip()[-60:]}")
    taken = lambda it: it.said().count("connections are taken")
    status, said = trial.word("takeover", b.journal, "word", env=b.env)
    case(status == 0 and until(b.serves) and until(lambda: "another run" in a.said()), f"B takes over while A serves: {said.strip()[:100]}")
    a.follows()
    case(load.goes_on(), "firms are answered by B")
    was = taken(a) + taken(b)
    words = [subprocess.Popen([trial.sidecar, "takeover", it.journal, "word"], env=it.env, stderr=subprocess.DEVNULL) for it in (a, b, a, b)]
    case(all(it.wait() == 0 for it in words), "two words for each at once")
    calm = until(lambda: stays(lambda: taken(a) + taken(b), 6) and load.goes_on())
    more = taken(a) + taken(b) - was
    case(calm and more <= 4, f"the book was taken over {more} times, and then no more")
    one, was = serving([a, b]), taken(a) + taken(b)
    trial.word("takeover", one.journal, "word", env=one.env)
    kept = until(lambda: lease_of(trial, "/allocd/word/lock") == "5s")
    case(kept and one.serves() and taken(a) + taken(b) == was, "a word for the machine that serves changes nothing: its lock is its own again")
    load.end()
    a.stop(signal.SIGTERM), b.stop(signal.SIGTERM)
    trial.replayed("word")


def lease_of(trial, key):
    """How long the lease of a key lives that nobody keeps."""
    found = re.search(r'"lease":(\d+)', trial.cluster.output("etcdctl", "get", key, "--write-out=json"))
    told = found and re.search(r"granted with TTL\((\w+)\)", trial.cluster.output("etcdctl", "lease", "timetolive", f"{int(found[1]):x}"))
    return told and told[1]


def stays(what, seconds):
    """Whether something is the same so many seconds later, and was so meanwhile."""
    was = what()
    return not until(lambda: what() != was, seconds)


def followers(trial):
    """A leader whose client port answers nothing, and followers 50 ms away."""
    cluster = trial.cluster
    deaf, leader = socket.create_server(("127.0.0.1", 0)), cluster.leader()
    port = deaf.getsockname()[1]
    env = dict(cluster.env, ETCD=",".join(f"127.0.0.1:{port}" if name == leader else it for name, it in cluster.nodes.items()))
    a = trial.machine("A", "deaf", env=env).start(again=False)
    case(until(a.serves), f"the leader {leader} answers no client: {a.last()}")
    load = trial.load("deaf", [a])
    case(load.goes_on(), "and firms are answered, by way of a node that follows")
    load.end()
    a.stop(signal.SIGTERM)
    far = trial.machine("A", "far", env=trial.line(50)).start(again=False)
    case(until(far.serves), f"nodes that are 50 ms away: {far.last()}")
    far.stop(signal.SIGTERM)
    trial.replayed("deaf"), trial.replayed("far")
    deaf.close()


def slow_lines(trial, journal):
    """A book is shown, watched, and taken over on an empty disk, over lines on which one reading takes more than two seconds."""
    slow = trial.line(1, 200)
    began = time.time()
    case(is_of(trial.show("joined", slow), journal), f"{len(journal)} bytes are shown over a slow line, in {time.time() - began:.1f} s")
    a = trial.machine("S", "joined", env=slow).start()
    case(until(a.serves) and a.keeps(journal), f"and taken over: {a.last()}")
    watch = trial.watch("joined", "slow", env=slow)
    case(trial.agreed("joined", "slow", trial.state("joined")[0]), "and watched")
    watch.kill()
    a.stop(signal.SIGTERM)
    trial.replayed("joined")


def watching(trial, journal):
    """A watch: that a piece comes to it once, what it shows, and its own trouble, which is no alarm: its batch is killed."""
    crosses_once(trial, journal)
    book, port = "joined", free_port()
    watch = trial.watch(book, "mine", "--metrics", str(port))
    entries = trial.state(book)[0]
    case(trial.agreed(book, "mine", entries), "a watch agrees")
    case(until(lambda: f"allocd_sidecar_entries {entries}\n" in page(port)) and 'role{role="watches"} 1' in page(port), "and shows how far it is")
    os.kill(children(watch.pid)[0], signal.SIGKILL)
    case(until(lambda: watch.poll() is not None) and watch.returncode == 1, f"its batch is killed: status {watch.returncode}")
    case(not trial.cluster.get(f"/allocd/{book}/alarm/mine") and "ALARM" not in contents(watch.log).decode(), "which is no alarm")


def crosses_once(trial, journal):
    """How many bytes come to a watch of a book to which a large piece is put."""
    frames, count = re.findall(rb"8=FIXT\.1\.1\x019=\d+\x01.*?\x0110=\d{3}\x01", journal[:700_000], re.S), f"{trial.room}/crossed"
    seals = [i for i, it in enumerate(frames) if b"\x0135=0\x01" in it]
    env, line = trial.cable(0, count=count)

    def put(last, at=0):
        """Has the book be these frames, of which so many bytes are there: bytes and entries."""
        data, entries = b"".join(frames[: last + 1]), sum(b"\x0135=0\x01" not in it and b"\x0135=A\x01" not in it for it in frames[: last + 1])
        put_book(trial.cluster, "once", data + b"\n", entries, trial.house, at)
        return len(data), entries

    def came(entries):
        """How many bytes came until the watch agrees."""
        trial.agreed("once", "w", entries)
        until(lambda: stays(lambda: contents(count), 0.5))
        return int(contents(count).split()[1])

    size, entries = put(seals[1])
    watch = trial.watch("once", "w", env=env)
    before = came(entries)
    whole, entries = put(seals[-1], size)
    more, size = came(entries) - before, whole - size
    case(size <= more < 1.5 * size, f"a piece of {size} bytes comes to a watch in {more} bytes")
    watch.kill(), line.kill()


def stalled(trial):
    """A watch whose batch stands still from the start: its own trouble too, after a minute."""
    program = f"{trial.room}/still"
    with open(program, "w") as it:
        it.write("#!/bin/sh\nkill -STOP $$\n")
    os.chmod(program, 0o755)
    watch = trial.watch("joined", "still", env=dict(trial.cluster.env, ALLOCD=program))
    until(lambda: children(watch.pid))
    batch = children(watch.pid)
    ended = until(lambda: watch.poll() is not None, 150)
    said = contents(watch.log).decode().strip()
    case(ended and watch.returncode == 1 and "allocd batch" in said and "ALARM" not in said, f"its batch stands still: status {watch.returncode}, {said[-100:]}")
    for it in batch:
        os.kill(it, signal.SIGKILL)


def options(trial):
    """A house file of two megabytes, and options that are handed on."""
    house, port = f"{trial.room}/long.house", free_port()
    made_house(house, "".join(f"ACCOUNT AAA {'X' * 11}{i}\n" for i in range(80_000)))
    status = f"{trial.room}/status"
    words = ["--metrics", str(port), "--hang", "60", "--", "--log-calls", "--status", status, "--per-firm", "3"]
    a = trial.machine("A", "long", *words, house=house).start(again=False)
    case(until(a.serves), f"a house file of {os.path.getsize(house)} bytes: {a.last()[-100:]}")
    own = Trial(trial.room, house, trial.cluster)
    own.started = trial.started
    load = own.load("long", [a])
    case(until(lambda: all(it in a.said() for it in ("log_calls=on", "per_firm=3", "event=called"))), "the server has the options behind --")
    ready = lambda: subprocess.run(["curl", "-s", "--unix-socket", status, "http://allocd/ready"], stdout=subprocess.PIPE, text=True).stdout
    case(until(lambda: ready() == "ready\n"), "and its status answers at the socket that was asked for")
    for line in ('role{role="serves"} 1', "lock 1", "nodes_answering 3", "entries_behind 0"):
        case(until(lambda: f"allocd_sidecar_{line}\n" in page(port)), f"the sidecar shows: {line}")
    puts = re.search(r"put_seconds_count (\d+)", page(port))
    case(puts and int(puts[1]) > 0, f"and {puts[1] if puts else 'no'} puts")
    load.end()
    entries = trial.state("long")[0]
    watch = trial.watch("long", "w")
    case(trial.agreed("long", "w", entries), "a watch has the house file from its pieces")
    watch.kill()
    a.stop(signal.SIGTERM)
    trial.replayed("long")


ASKS = r"""#!/usr/bin/env python3
import os, socket, sys, time
path = sys.argv[sys.argv.index("--replicate") + 1]
open(sys.argv[3], "wb").write(b"8=A|\0")
line = socket.socket(socket.AF_UNIX)
line.connect(path)
answers = open(sys.argv[3] + ".answers", "a", buffering=1)
for words in ("0 4\n", "?\n", "?\n"):
    line.sendall(words.encode())
    answers.write(repr(line.recv(100)) + "\n")
while not os.path.exists(sys.argv[3] + ".go"):
    time.sleep(0.05)
line.sendall(b"?\n")
answers.write(repr(line.recv(100)) + "\n")
"""


def asked(trial):
    """A server that asks whether it may go on: it may while its sidecar is the writer, and as soon as another is, nobody says so."""
    program = f"{trial.room}/asks"
    with open(program, "w") as it:
        it.write(ASKS)
    os.chmod(program, 0o755)
    a = trial.machine("A", "asked", "--hang", "60", env=dict(trial.cluster.env, ALLOCD=program)).start(again=False)
    answers = lambda: contents(f"{a.journal}.answers").decode().split() if os.path.exists(f"{a.journal}.answers") else []
    case(until(lambda: len(answers()) == 3) and answers() == [r"b'0\n'", r"b'yes\n'", r"b'yes\n'"], f"a server that asks is answered: {answers()}")
    trial.cluster.put("/allocd/asked/writer", "another")
    open(f"{a.journal}.go", "w").close()
    case(a.ends() and "another run has taken the book over" in a.said() and answers()[3:] != [r"b'yes\n'"], f"and not once another is the writer: {a.last()[:80]}")
    trial.replayed("asked")


def frozen(trial):
    """A file system that is frozen, below the journal of the machine that serves: it wants a loop device, and root."""
    image, folder = f"{trial.room}/disk", f"{trial.room}/frozen-A"
    os.makedirs(folder)
    subprocess.run(["truncate", "-s", "64M", image], check=True)
    subprocess.run(["mkfs.ext4", "-q", image], check=True)
    if subprocess.run(["mount", "-o", "loop", image, folder]).returncode:
        return print("no loop device here: a frozen file system isn't tried")
    try:
        a, b = pair(trial, "frozen")
        load = trial.load("frozen", [a, b], PAUSE="0.01")
        hung(load, "the file system of A is frozen", lambda: subprocess.run(["fsfreeze", "-f", folder], check=True))
        case(until(b.serves), "B serves")
        subprocess.run(["fsfreeze", "-u", folder], check=True)
        a.follows()
        load.end()
        a.stop(), b.stop()
        trial.replayed("frozen")
    finally:
        subprocess.run(["fsfreeze", "-u", folder], stderr=subprocess.DEVNULL)
        subprocess.run(["umount", "--lazy", folder])  # this program has the log there open


def full_journal(journal, entries):
    """A journal of so many trades, as `keep` writes them, of one that begins with a trade."""
    frames = re.findall(rb"8=FIXT\.1\.1\x019=\d+\x01(.*?\x01)10=\d{3}\x01", journal[:100_000], re.S)
    head = journal[: journal.index(b"8=FIXT", 1)]
    trade, seal = (next(it for it in frames if it.startswith(b"35=" + kind)) for kind in (b"AE\x01", b"0\x01"))
    first, last = re.split(rb"\x0134=\d+\x01", trade, 1)[0], re.split(rb"\x01571=[^\x01]*\x01", trade, 1)[1]
    middle = re.search(rb"\x0134=\d+(\x01.*?)\x01571=", trade)[1]
    sum_of, out = hashlib.sha512(head), [head]
    for group in range(1, entries + 1, 500):
        numbers = range(group, min(group + 500, entries + 1))
        data = b"".join(frame(b"%b\x0134=%d%b\x01571=F%d\x01%b" % (first, n, middle, n, last)) for n in numbers)
        sum_of.update(data)
        own = re.sub(rb"\x0134=\d+", b"\x0134=%d" % numbers.stop, seal)
        ends = frame(re.sub(rb"\x01112=[0-9a-f]{128}\x0158=\d+", b"\x01112=%b\x0158=%d" % (sum_of.hexdigest().encode(), group), own))
        sum_of.update(ends)
        out += [data, ends]
    return b"".join(out) + b"\0"


def full(trial, journal):
    """A full journal is adopted over a line of 10 Mbit/s; shown, watched, and taken over on an empty disk over one of 100."""
    env, line = trial.cable(1, 12_500)
    a, b = trial.machine("A", "full"), trial.machine("B", "full", env=env)
    whole = full_journal(journal, 1_000_000)
    with open(a.journal, "wb") as it:
        it.write(whole)
    began = time.time()
    status, said = trial.word("adopt", trial.house, a.journal, "full", env=dict(trial.line(1, 1_250), TRACE=a.env["TRACE"]))
    case(status == 0, f"{len(whole)} bytes are adopted over 10 Mbit/s, in {time.time() - began:.0f} s: {said.strip().splitlines()[-1]}")
    least, began = len(whole) / 12_500_000, time.time()
    shown = trial.show("full", env)
    case(shown == whole and time.time() - began > least, f"they are shown over 100 Mbit/s, in {time.time() - began:.0f} s")
    began = time.time()
    b.start(again=False)
    case(until(b.serves, 300) and b.keeps(whole) and time.time() - began > least, f"and taken over on an empty disk: {b.last()}")
    began = time.time()
    watch = trial.watch("full", "w", env=env)
    case(until(lambda: trial.cluster.get("/allocd/full/done/w") == "1000000", 300), f"and watched, in {time.time() - began:.0f} s")
    watch.kill()
    b.stop(signal.SIGTERM)
    line.kill()
    trial.replayed("full")
