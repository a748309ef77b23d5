package main

import (
	"bytes"
	"fmt"
	"io"
	"os"
	"strconv"
	"sync/atomic"
	"time"

	"go.etcd.io/etcd/clientv3"
)

const (
	joined     = 512 << 10 // bytes of a piece that was made of small ones
	small      = 256 << 10 // a piece of fewer is joined
	mostJoined = 4096      // pieces at once
	joinEach   = 250 * time.Millisecond
)

// joiner makes large pieces of small ones: of what etcd has, after a look at its seals, and if it is what the file has.
type joiner struct {
	k     *keys
	b     *writer
	file  *os.File
	chain *chain // up to `at`
	at    int64
}

// upkeep joins old pieces as long as this run is the writer. It has a line of its own.
func (b *writer) upkeep(path string) {
	k := b.k.another()
	file, err := os.Open(path)
	check(err)
	j := &joiner{k: k, b: b, file: file, chain: newChain(), at: k.firstSmall()}
	if err := j.chain.from(io.NewSectionReader(file, 0, j.at)); err != nil {
		lost("%s isn't what was put: %v", path, err)
	}
	for range time.Tick(joinEach) {
		for last := int64(-1); j.at > last && j.at+joined <= atomic.LoadInt64(&b.put); {
			last = j.at
			if err := j.join(); err != nil {
				say("ALARM: %v; nothing is joined any more", err)
				k.swap(nil, []clientOp{k.opPut("alarm/join", err.Error())})
				return
			}
		}
	}
}

// firstSmall is where the run of small pieces begins with which the book ends.
func (k *keys) firstSmall() int64 {
	offsets := []int64{}
	for from := k.root + "piece/"; ; {
		rows := k.readWithin(pagePatience, clientv3.OpGet(from, clientv3.WithRange(k.root+"piece0"), clientv3.WithLimit(50_000), clientv3.WithKeysOnly()))[0]
		for _, kv := range rows.Kvs {
			offset, _ := strconv.ParseInt(string(bytes.TrimPrefix(kv.Key, []byte(k.root+"piece/"))), 10, 64)
			offsets = append(offsets, offset)
		}
		if !rows.More {
			break
		}
		from = string(rows.Kvs[len(rows.Kvs)-1].Key) + "\x00"
	}
	first := len(offsets) - 1
	for first > 0 && offsets[first]-offsets[first-1] < small {
		first--
	}
	if first < 0 {
		return 0
	}
	return offsets[first]
}

// join makes one piece of those that begin at `at`, up to where a piece begins, and goes on there; where nothing can be done yet it stays.
func (j *joiner) join() error {
	end, next := j.reach()
	if end <= j.at {
		return j.pass(next) // one that is large
	}
	rows := j.k.readWithin(pagePatience, clientv3.OpGet(j.k.root+pieceKey(j.at), clientv3.WithRange(j.k.root+pieceKey(end))))[0].Kvs
	data := []byte{}
	for _, kv := range rows {
		data = append(data, kv.Value...)
	}
	after := j.chain.again()
	if err := after.take(data); err != nil {
		return fmt.Errorf("etcd's pieces from byte %d on: %v", j.at, err)
	}
	own := make([]byte, end-j.at)
	_, err := j.file.ReadAt(own, j.at)
	check(err)
	if !bytes.Equal(own, data) {
		lost("%s isn't what etcd has, between bytes %d and %d, whose seals are right: look at this machine's disk", j.file.Name(), j.at, end)
	}
	said, err := j.k.swap([]clientv3.Cmp{j.k.since("writer", j.b.taken)}, []clientOp{
		clientv3.OpDelete(j.k.root+pieceKey(j.at)+"\x00", clientv3.WithRange(j.k.root+pieceKey(end))), clientv3.OpPut(j.k.root+pieceKey(j.at), string(data))})
	if err == nil && said.Succeeded { // else the next put tells why
		j.at, j.chain = end, after
	}
	return nil
}

// reach is where the piece ends that begins at `at` and has at most so many bytes, and where the one after that begins.
func (j *joiner) reach() (int64, int64) {
	rows := j.k.read(clientv3.OpGet(j.k.root+pieceKey(j.at), clientv3.WithRange(j.k.root+"piece0"), clientv3.WithKeysOnly(), clientv3.WithLimit(mostJoined)))[0].Kvs
	end, next := j.at, j.at
	for _, kv := range rows {
		offset, _ := strconv.ParseInt(string(bytes.TrimPrefix(kv.Key, []byte(j.k.root+"piece/"))), 10, 64)
		if next = offset; offset > j.at+joined {
			break
		}
		end = offset
	}
	return end, next
}

// pass goes on behind a piece that stays as it is.
func (j *joiner) pass(next int64) error {
	err := j.chain.from(io.NewSectionReader(j.file, j.at, next-j.at))
	j.at = next
	return err
}
