package main

import (
	"bytes"
	"crypto/sha256"
	"encoding"
	"encoding/hex"
	"fmt"
	"hash"
	"strconv"

	"go.etcd.io/etcd/clientv3"
	"go.etcd.io/etcd/mvcc/mvccpb"
)

const (
	pageBytes = 8 << 20 // that are read at once, or so
	mostRows  = 2000
	fewRows   = 10 // of 700,000 bytes
)

var emptyDigest = hex.EncodeToString(sha256.New().Sum(nil))

func pieceKey(offset int64) string { return fmt.Sprintf("piece/%012d", offset) }

// cloned has `copy` be what `sum` is.
func cloned(sum, copy hash.Hash) hash.Hash {
	state, err := sum.(encoding.BinaryMarshaler).MarshalBinary()
	check(err)
	check(copy.(encoding.BinaryUnmarshaler).UnmarshalBinary(state))
	return copy
}

func digest(sum hash.Hash) string { return hex.EncodeToString(sum.Sum(nil)) }

// reader reads a book from some byte on. sha has taken in what comes before it.
type reader struct {
	k      *keys
	at     int64
	sha    hash.Hash
	rows   int64
	placed int64 // the revision of the last head that was read
}

func (k *keys) reader() *reader { return &reader{k: k, sha: sha256.New(), rows: fewRows} }

// next gives the next bytes of the book, none where it has no more, and its head at that moment. What isn't a book is an error: a piece that
// lacks, bytes that aren't those that the head says.
func (r *reader) next() ([]byte, header, error) {
	rows := r.k.readWithin(pagePatience, clientv3.OpGet(r.k.root+"head"),
		clientv3.OpGet(r.k.root+pieceKey(r.at), clientv3.WithRange(r.k.root+"piece0"), clientv3.WithLimit(r.rows)))
	h, placed := headerOf(rows[0])
	if r.at < h.length && (len(rows[1].Kvs) == 0 || r.offset(rows[1].Kvs[0]) != r.at) {
		rows = r.k.readWithin(pagePatience, clientv3.OpGet(r.k.root+"head"), clientv3.OpGet(r.k.root+"piece/", clientv3.WithRange(r.k.root+pieceKey(r.at)),
			clientv3.WithSort(clientv3.SortByKey, clientv3.SortDescend), clientv3.WithLimit(1)))
		h, placed = headerOf(rows[0])
	}
	r.placed = placed
	data, size := []byte{}, int64(len(rows[1].Kvs)+1)
	for _, kv := range rows[1].Kvs {
		offset := r.offset(kv)
		from := r.at + int64(len(data)) - offset // pieces that were joined begin before
		if offset >= h.length || from < 0 || from > int64(len(kv.Value)) {
			break
		}
		data = append(data, kv.Value[from:]...)
	}
	r.rows = clamp(pageBytes/(int64(len(data))/size+1), fewRows, mostRows)
	return data, h, r.took(data, h)
}

// offset says where a piece begins; none begins at -1.
func (r *reader) offset(kv *mvccpb.KeyValue) int64 {
	offset, err := strconv.ParseInt(string(bytes.TrimPrefix(kv.Key, []byte(r.k.root+"piece/"))), 10, 64)
	if err != nil {
		return -1
	}
	return offset
}

func (r *reader) took(data []byte, h header) error {
	before := r.at
	r.at += int64(len(data))
	r.sha.Write(data)
	switch {
	case before > h.length:
		return fmt.Errorf("etcd has less than was told: its book has %d bytes, and it was read to %d", h.length, before)
	case r.at > h.length:
		return fmt.Errorf("the pieces have more than the %d bytes that head says", h.length)
	case r.at < h.length && len(data) == 0:
		return fmt.Errorf("no piece at %d", r.at)
	case r.at == h.length && digest(r.sha) != h.digest:
		return fmt.Errorf("the digest of the first %d bytes is %s, and head says %s", r.at, digest(r.sha), h.digest)
	}
	return nil
}

// rest gives all that the book has from there on.
func (r *reader) rest() ([]byte, error) {
	var all []byte
	for {
		data, h, err := r.next()
		if err != nil {
			return nil, err
		}
		all = append(all, data...)
		if r.at == h.length {
			return all, nil
		}
	}
}

// beginnings gives where some of the last pieces begin that begin before a byte: the last one, and each time twice as far back.
func (k *keys) beginnings(before int64) []int64 {
	offsets := []int64{}
	for i, kv := range k.read(clientv3.OpGet(k.root+"piece/", clientv3.WithRange(k.root+pieceKey(before)), clientv3.WithSort(clientv3.SortByKey, clientv3.SortDescend),
		clientv3.WithLimit(1024), clientv3.WithKeysOnly()))[0].Kvs {
		if i&(i+1) != 0 {
			continue
		}
		if offset, err := strconv.ParseInt(string(bytes.TrimPrefix(kv.Key, []byte(k.root+"piece/"))), 10, 64); err == nil {
			offsets = append(offsets, offset)
		}
	}
	return offsets
}
