package main

import (
	"bytes"
	"crypto/sha256"
	"io"
	"os"
	"syscall"
	"time"

	"go.etcd.io/etcd/clientv3"
)

const (
	adoptedPiece = 512 << 10
	lockWait     = 20 * time.Second // longer than the lease lives of a `run` that is gone, or of a word to take over
)

var adoptPatience = waits{each: 30 * time.Second, all: 5 * time.Minute, silent: 5 * time.Minute} // for a piece, over a slow line

// adopt puts a journal of which etcd has less, or nothing. The marker `adopting` comes first, with `writer`: while it stands nobody takes the book
// over. Then come the pieces, and at last, in one transaction, the head and the end of the marker. What was broken off is begun anew.
func adopt(w wishes) {
	syscall.Umask(0o077)
	lock := held(w.file)
	defer lock.Close()
	run, k := newRun(), newKeys(w.book)
	l := newHold(w.book, place(w.file), 15)
	leave = l.leave
	endsAtOnce()
	h, placed := pin(k, w.house)
	l.awaited()
	file, err := os.Open(w.file)
	check(err)
	c := whole(file, w.house)
	begins(file, c, h)
	b := mark(k, l, h, placed, run)
	traced("marked", run, b.taken, h.entries, h.length)
	b.putAll(file, c, h)
	traced("adopted", run, b.placed, b.head.entries, b.head.length)
	n := noted(w.file)
	n.adopted = run
	n.see(b.head, b.placed)
	n.begin()
	ownedAs(n.path, w.file)
	l.leave()
	say("etcd has the book: %d entries in %d bytes", c.entries, c.sealed)
}

// awaited has the lock be this machine's, if need be once the lease of one who is gone is over.
func (l *hold) awaited() {
	for began, told := time.Now(), false; ; time.Sleep(200 * time.Millisecond) {
		had, who := l.take()
		switch {
		case had:
			return
		case time.Since(began) > lockWait:
			lost("%s has the lock: stop its sidecar first", who)
		case !told:
			say("%s has the lock: up to %.0f s are waited for it", who, lockWait.Seconds())
			told = true
		}
	}
}

// whole reads a journal to its last seal. A zero that stands before a group which was committed is damage.
func whole(file *os.File, housePath string) *chain {
	house, err := os.ReadFile(housePath)
	check(err)
	size := counted(file)
	if size == 0 {
		lost("%s has nothing to begin a book with", file.Name())
	}
	c := newChain()
	bad := c.from(io.NewSectionReader(file, 0, size))
	behind := rest(file, size)
	if bad != nil || len(behind) == 0 {
		lost("%s is no whole journal: behind byte %d stands no group and no zero: %v", file.Name(), c.at, bad)
	}
	if c.house != sha256Of(house) {
		lost("%s is of a house file with SHA-256 %s, and %s has %s", file.Name(), c.house, housePath, sha256Of(house))
	}
	if c.entries = c.within; c.entries == -1 {
		c.entries = openingOf(house)
	}
	for _, seal := range seals(behind) {
		if isLater(seal, c.entries) {
			lost("%s is no whole journal: a zero stands at byte %d, before a group that was committed", file.Name(), size)
		}
	}
	return c
}

// openingOf is how many entries a book begins with: the agreements of a house file of version 2.
func openingOf(house []byte) int64 {
	if !bytes.HasPrefix(house, []byte("GIVEUP 2\n")) {
		return 0
	}
	return int64(bytes.Count(house, []byte("\nAGREEMENT ")))
}

// begins refuses a journal that doesn't begin with what etcd has.
func begins(file *os.File, c *chain, h header) {
	sum := sha256.New()
	if h.length <= c.sealed {
		_, err := io.Copy(sum, io.NewSectionReader(file, 0, h.length))
		check(err)
	}
	if h.length > c.sealed || digest(sum) != h.digest {
		lost("etcd has a book of %d entries in %d bytes with which %s doesn't begin: keep both, and see \"An etcd that went back\" in replicas.md", h.entries, h.length, file.Name())
	}
}

// mark puts the marker, and is the writer then.
func mark(k *keys, l *hold, h header, placed int64, run string) *writer {
	b := &writer{k: k, run: run, head: h, placed: placed}
	said, err := k.swap([]clientv3.Cmp{k.is("lock", l.name), k.since("head", placed)}, []clientOp{k.opPut("writer", run), k.opPut("adopting", run), b.cut(h)})
	check(err)
	if b.taken = said.Header.Revision; !said.Succeeded {
		found, revision := k.get("adopting")
		if b.taken = revision; string(found) != run {
			lost("somebody else writes the book: try again")
		}
	}
	return b
}

// putAll puts the pieces from the head on, and at last the head.
func (w *writer) putAll(file *os.File, c *chain, h header) {
	sum := sha256.New()
	_, err := io.Copy(sum, io.NewSectionReader(file, 0, h.length))
	check(err)
	told := time.Now()
	for at := h.length; at < c.sealed; at += adoptedPiece {
		data := make([]byte, clamp(c.sealed-at, 1, adoptedPiece))
		_, err := file.ReadAt(data, at)
		check(err)
		sum.Write(data)
		w.putPiece(adoptPatience, at, string(data))
		if time.Since(told) > 5*time.Second {
			told = time.Now()
			say("%d of %d bytes are put", at+int64(len(data)), c.sealed)
		}
	}
	end := header{entries: c.entries, length: c.sealed, digest: digest(sum)}
	name, _ := os.Hostname()
	w.putWith(adoptPatience, end, clientv3.OpDelete(w.k.root+"adopting"), w.k.opPut("adopted", w.run), clientv3.OpDelete(w.k.root+"alarm/"+name))
}
