package main

import (
	"crypto/sha256"
	"errors"
	"fmt"
	"hash"
	"io"
	"os"
	"strconv"
	"time"
)

// show writes the journal as a file has it.
func show(book string) {
	r := newKeys(book).reader()
	for {
		data, h, err := r.next()
		if err != nil {
			lost("%v", err)
		}
		if !h.known {
			lost("etcd has no book %s", book)
		}
		if _, err = os.Stdout.Write(data); err != nil {
			lost("%v", err)
		}
		if r.at == h.length {
			os.Stdout.Write([]byte{bound})
			return
		}
	}
}

// witness looks at a book as it grows.
type witness struct {
	k      *keys
	name   string
	chain  *chain
	batch  *batch
	agreed memory
}

// watch compares a book with what it says of itself, with what the rules give, and with what it was, and goes on as it grows.
func watch(a order) {
	w := &witness{k: newKeys(a.book), name: a.name, chain: newChain(), agreed: remembered(a.memory)}
	shown.answer(a.metrics, "watches")
	go w.k.another().watchNodes()
	house, err := w.k.house()
	if err != nil && w.agreed.length > 0 {
		w.alarm("%v, and %d entries were agreed to", err, w.agreed.entries)
	}
	check(err)
	w.batch = startBatch(w, house)
	w.chain.heed = w.batch.ask
	r := w.k.reader()
	for range w.k.wakes("head") {
		for more := true; more; {
			data, h, err := r.next()
			if err != nil {
				w.alarm("%v", err)
			}
			w.look(data, sha256Of(house))
			shown.follows(r.at, h)
			if more = r.at < h.length; !more && h.known {
				w.reached(h)
			}
		}
		time.Sleep(20 * time.Millisecond)
	}
}

// look takes the next bytes of the book.
func (w *witness) look(data []byte, house string) {
	if err := w.agreed.take(data); err != nil {
		w.alarm("%v", err)
	}
	if err := w.chain.take(data); err != nil {
		w.alarm("%v", err)
	}
	if w.chain.at > 0 && w.chain.house != house {
		w.alarm("the journal is of a house file with SHA-256 %s, and the book's has %s", w.chain.house, house)
	}
}

// reached agrees with all that the book has, once the batch has answered it.
func (w *witness) reached(h header) {
	w.batch.hearAll(w.chain)
	switch {
	case len(w.chain.held) > 0:
		w.alarm("the book ends inside a frame, at byte %d", w.chain.at)
	case w.chain.entries != -1 && w.chain.entries != h.entries:
		w.alarm("the book has %d entries, and head says %d", w.chain.entries, h.entries)
	case h.length < w.agreed.length:
		w.alarm("etcd has less than was told: %d entries in %d bytes, and %d in %d were agreed to", h.entries, h.length, w.agreed.entries, w.agreed.length)
	case h.length > w.agreed.length || !w.agreed.said:
		if !w.agreed.said {
			w.k.over(w.name)
		}
		w.agreed.keep(h)
		w.k.put("done/"+w.name, strconv.FormatInt(h.entries, 10))
	}
}

// alarm says what isn't as it must be, has it stand in alarm/NAME, and ends with status 3.
func (w *witness) alarm(words string, more ...interface{}) {
	text := fmt.Sprintf(words, more...)
	say("ALARM: %s", text)
	w.k.swap(nil, []clientOp{w.k.opPut("alarm/"+w.name, text)})
	os.Exit(3)
}

// watchNodes has the figures know how many nodes answer.
func (k *keys) watchNodes() {
	for ; ; time.Sleep(sizeEach) {
		answering := 0
		for _, node := range k.nodes {
			if _, _, err := k.size(node, askWait); err == nil {
				answering++
			}
		}
		shown.setNodes(answering, len(k.nodes))
	}
}

// memory is how far a watch agreed, in a file: the book has to go on from there.
type memory struct {
	path            string
	entries, length int64
	digest          string
	at              int64
	sum             hash.Hash
	said            bool // in this run
}

func remembered(path string) memory {
	m := memory{path: path, sum: sha256.New()}
	text, err := os.ReadFile(path)
	if path == "" || errors.Is(err, os.ErrNotExist) {
		return m
	}
	check(err)
	if n, _ := fmt.Sscanf(string(text), "%d %d %s", &m.entries, &m.length, &m.digest); n != 3 {
		lost("%s isn't what a watch remembers: %q", path, text)
	}
	return m
}

// take takes the book's next bytes: the first ones have to be those that were agreed to.
func (m *memory) take(data []byte) error {
	if m.said || m.at >= m.length {
		return nil
	}
	n := clamp(int64(len(data)), 0, m.length-m.at)
	m.sum.Write(data[:n])
	if m.at += n; m.at == m.length && digest(m.sum) != m.digest {
		return fmt.Errorf("the first %d bytes aren't those that were agreed to: they have %s, and had %s", m.length, digest(m.sum), m.digest)
	}
	return nil
}

func (m *memory) keep(h header) {
	m.entries, m.length, m.digest, m.said = h.entries, h.length, h.digest, true
	if m.path == "" {
		return
	}
	file, err := os.OpenFile(m.path+".new", os.O_WRONLY|os.O_CREATE|os.O_TRUNC, 0o600)
	check(err)
	_, err = io.WriteString(file, fmt.Sprintf("%d %d %s\n", h.entries, h.length, h.digest))
	check(err)
	check(file.Sync())
	check(file.Close())
	check(os.Rename(m.path+".new", m.path))
}
