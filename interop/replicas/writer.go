package main

import (
	"fmt"
	"hash"
	"os"
	"sort"
	"sync/atomic"
	"syscall"
	"time"

	"go.etcd.io/etcd/clientv3"
)

// clientOp is an operation of etcd.
type clientOp = clientv3.Op

const mostPiece = 700_000 // bytes of a piece: etcd takes 1.5 MiB in a transaction

// writer is who may put a book: the key `writer` has its run, in the revision `taken`. Whoever puts `writer` anew ends it.
type writer struct {
	k       *keys
	run     string
	taken   int64
	head    header
	placed  int64 // the revision in which head was put
	note    *note
	put     int64 // bytes that are put, for the joining
	times   []time.Duration
	written int64
}

// take makes this run the writer, whoever was it, if the lock is this machine's and nobody adopts; and deletes what is behind the head: pieces of
// a group that was never whole. Where nobody puts meanwhile that is one transaction; else `writer` comes first, and then nobody else moves the head.
func take(k *keys, l *hold, n *note, run string) *writer {
	w := &writer{k: k, run: run, note: n}
	for w.taken == 0 {
		rows := k.read(clientv3.OpGet(k.root+"head"), clientv3.OpGet(k.root+"writer"), clientv3.OpGet(k.root+"lock"), clientv3.OpGet(k.root+"adopting"))
		h, placed := headerOf(rows[0])
		_, revision := first(rows[1])
		if run, marked := first(rows[3]); marked > 0 {
			lost("an adoption isn't over: %s; `adopt` again, where the whole journal is", run)
		}
		if lock, _ := first(rows[2]); string(lock) != l.name {
			lost("the lock was given to %q", lock)
		}
		if w.takeAtOnce(l, h, placed, revision) {
			traced("took", run, w.taken, w.head.entries, w.head.length)
			return w
		}
		said, err := k.swap(append(mine(k, l), k.since("writer", revision)), []clientOp{k.opPut("writer", run)})
		check(err)
		if said.Succeeded {
			w.taken = said.Header.Revision
		} else if found, revision := k.get("writer"); string(found) == run {
			w.taken = revision // it was done, and the answer got lost
		}
	}
	if w.head, w.placed = k.head(); w.head.known {
		w.putHead(w.head, w.cut(w.head))
	}
	traced("took", run, w.taken, w.head.entries, w.head.length)
	return w
}

// mine holds where the lock is this machine's, and no adoption is under way.
func mine(k *keys, l *hold) []clientv3.Cmp {
	return []clientv3.Cmp{k.is("lock", l.name), k.since("adopting", 0)}
}

func (w *writer) takeAtOnce(l *hold, h header, placed, revision int64) bool {
	ops := []clientOp{w.k.opPut("writer", w.run), w.cut(h)}
	if h.known {
		h.run = w.run
		ops = append(ops, w.k.opPut("head", h.String()))
	}
	said, err := w.k.swap(append(mine(w.k, l), w.k.since("writer", revision), w.k.since("head", placed)), ops)
	check(err)
	if said.Succeeded {
		w.taken, w.head = said.Header.Revision, h
		if h.known {
			w.placed = said.Header.Revision
		}
	}
	return said.Succeeded
}

// cut deletes the pieces from a head's end on.
func (w *writer) cut(h header) clientOp {
	return clientv3.OpDelete(w.k.root+pieceKey(h.length), clientv3.WithRange(w.k.root+"piece0"))
}

// putHead does this and puts the head, if this run is the writer still; else it ends.
func (w *writer) putHead(h header, ops ...clientOp) {
	w.putWith(putPatience, h, ops...)
}

func (w *writer) putWith(p waits, h header, ops ...clientOp) {
	h.run, h.known = w.run, true
	ops = append(ops, w.k.opPut("head", h.String()))
	said, err := w.k.swapWithin(p, []clientv3.Cmp{w.k.since("writer", w.taken), w.k.since("head", w.placed)}, ops)
	check(err)
	if said.Succeeded {
		w.placed = said.Header.Revision
	} else {
		found, revision := w.k.get("head")
		if string(found) != h.String() || revision <= w.placed {
			traced("superseded", w.run)
			lost("another run has taken the book over: head is %s", found)
		}
		w.placed = revision // it was done, and the answer got lost
	}
	w.head = h
	traced("put", w.run, w.placed, h.entries, h.length)
}

// putPiece puts a piece behind the head, which nobody reads yet, if this run is the writer still.
func (w *writer) putPiece(p waits, at int64, data string) {
	said, err := w.k.swapWithin(p, []clientv3.Cmp{w.k.since("writer", w.taken)}, []clientOp{w.k.opPut(pieceKey(at), data)})
	check(err)
	if !said.Succeeded {
		traced("superseded", w.run)
		lost("another run has taken the book over")
	}
}

// offer puts what the file has up to this length, which are so many entries. sha has taken in what is put already.
func (w *writer) offer(file *os.File, sha hash.Hash, entries, length int64) {
	h := w.head
	if length < h.length || entries < h.entries || length == h.length && entries != h.entries {
		lost("the server has %d entries in %d bytes, where %d in %d are put", entries, length, h.entries, h.length)
	}
	if length == h.length {
		return
	}
	began := time.Now()
	for at := h.length; at < length; {
		data := make([]byte, clamp(length-at, 1, mostPiece))
		_, err := file.ReadAt(data, at)
		check(err)
		sha.Write(data)
		if end := at + int64(len(data)); end < length {
			w.putPiece(putPatience, at, string(data))
		} else {
			w.putHead(header{entries: entries, length: length, digest: digest(sha)}, w.k.opPut(pieceKey(at), string(data)))
		}
		at += int64(len(data))
	}
	w.note.see(w.head, w.placed)
	atomic.StoreInt64(&w.put, length)
	took := time.Since(began)
	shown.setPut(took, entries)
	w.times = append(w.times, took)
	w.written += length - h.length
}

func (w *writer) figures() string {
	sort.Slice(w.times, func(i, j int) bool { return w.times[i] < w.times[j] })
	n := len(w.times)
	if n == 0 {
		return "no group was put"
	}
	var use syscall.Rusage
	syscall.Getrusage(syscall.RUSAGE_SELF, &use)
	ms := func(at int) float64 { return float64(w.times[at].Microseconds()) / 1000 }
	return fmt.Sprintf("%d groups of %d bytes were put, in p50 %.2f p99 %.2f most %.1f ms; CPU %d us a group", n, w.written, ms(n/2), ms(n*99/100), ms(n-1),
		(use.Utime.Nano()+use.Stime.Nano())/1000/int64(n))
}
