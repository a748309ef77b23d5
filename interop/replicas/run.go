package main

import (
	"bytes"
	"crypto/rand"
	"encoding/hex"
	"fmt"
	"os"
	"os/signal"
	"path/filepath"
	"sync/atomic"
	"syscall"
	"time"
)

func newRun() string {
	id := make([]byte, 16)
	_, err := rand.Read(id)
	check(err)
	return hex.EncodeToString(id)
}

// run waits for the lock, takes the book over, and runs the server on it.
func run(w wishes) {
	syscall.Umask(0o077)
	lock := held(w.file)
	ends := endsAtOnce()
	again := backoff(w.file + ".starts")
	run, k, n := newRun(), newKeys(w.book), noted(w.file)
	traced("begins", run, n.head.entries, n.head.length)
	shown.answer(w.metrics, "starts")
	go k.another().watchRoom()
	h, revision := pin(k, w.house)
	permitted(k, n, h, revision, standingOf(w.file, h.length), run)
	n.begin()
	l := newHold(w.book, place(w.file), w.ttl)
	leave = l.leave
	if had, _ := l.take(); !had {
		follow(k, l, n, w.file, run, again)
	}
	began := time.Now()
	b := take(k, l, n, run)
	m, source := settle(k, n, b.head, b.placed, w.file, run)
	m.sync()
	signal.Stop(ends)
	close(ends)
	s := start(w, lock)
	leave = func() {
		atomic.StoreInt32(&s.stops, 1) // why it ends is said already
		s.hangUp()
		l.leave()
		s.process.Process.Kill()
	}
	go s.watchHealth(w.hang)
	s.serve(b, l, m, func() {
		again.served()
		shown.setRole("serves")
		say("%d entries, %d bytes, %s; taken over in %.2f s; connections are taken on %s", b.head.entries, b.head.length, source, time.Since(began).Seconds(), w.port)
	})
}

// follow waits for the lock, and has the file follow the book meanwhile.
func follow(k *keys, l *hold, n *note, path, run string, again *starts) {
	_, who := l.take()
	h, revision := k.head()
	m, source := settle(k, n, h, revision, path, run)
	say("waits for %s; follows with %d bytes, %s", who, m.at, source)
	shown.setRole("follows")
	shown.follows(m.at, h)
	again.served()
	r := k.reader()
	r.at, r.sha = m.at, m.sha
	for range k.wakes("head", "lock") {
		for more := true; more; {
			data, h, revision := r.goesOn()
			m.add(data)
			m.sha = r.sha
			if more = r.at < h.length; !more && h.known {
				n.see(h, revision)
			}
			shown.follows(r.at, h)
		}
		if who, _ := k.get("lock"); who == nil || string(who) == l.name { // an attempt costs the nodes a write, a look doesn't
			if had, _ := l.take(); had {
				m.close()
				return
			}
		}
		time.Sleep(20 * time.Millisecond) // so that a reading brings more than one group
	}
}

// goesOn gives the next bytes, the head, and the revision of that; what isn't as it must be ends this program, which looks at it anew.
func (r *reader) goesOn() ([]byte, header, int64) {
	data, h, err := r.next()
	if err != nil {
		lost("the book isn't as it must be: %v", err)
	}
	return data, h, r.placed
}

// endsAtOnce has a signal end this program at once, until the channel is closed.
func endsAtOnce() chan os.Signal {
	ends := make(chan os.Signal, 1)
	signal.Notify(ends, syscall.SIGTERM, syscall.SIGINT)
	go func() {
		if _, more := <-ends; more {
			unserved()
		}
	}()
	return ends
}

func unserved() {
	leave()
	say("stopped before the book was served")
	os.Exit(0)
}

// place names this machine and the file.
func place(path string) string {
	name, err := os.Hostname()
	check(err)
	id, err := os.ReadFile("/proc/sys/kernel/random/boot_id") // machines that are copies of one another differ in this
	check(err)
	path, err = filepath.Abs(path)
	check(err)
	return fmt.Sprintf("%s %.8s %s", name, bytes.TrimSpace(id), path)
}
