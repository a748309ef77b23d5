package main

import (
	"bytes"
	"crypto/sha256"
	"fmt"
	"os"

	"go.etcd.io/etcd/clientv3"
)

const (
	wholeHouse = 1_000_000 // bytes of a house file that is one value
	housePiece = 512 << 10
	houseForm  = "IN PIECES %d %s" // its length and its SHA-256; a house file begins with GIVEUP
)

// pinned is the value of the key `house`, and the pieces that it stands for.
func pinned(house []byte) (string, []string) {
	if len(house) <= wholeHouse {
		return string(house), nil
	}
	pieces := []string{}
	for at := 0; at < len(house); at += housePiece {
		pieces = append(pieces, string(house[at:min(at+housePiece, len(house))]))
	}
	return fmt.Sprintf(houseForm, len(house), sha256Of(house)), pieces
}

func sha256Of(data []byte) string { return fmt.Sprintf("%x", sha256.Sum256(data)) }

func housePieceKey(digest string, number int) string {
	return fmt.Sprintf("house-piece/%.16s/%04d", digest, number)
}

// pin has the book's house file be this one, and gives the book's head.
func pin(k *keys, path string) (header, int64) {
	house, err := os.ReadFile(path)
	check(err)
	value, pieces := pinned(house)
	if there, _ := k.get("house"); there == nil {
		for i, piece := range pieces {
			k.put(housePieceKey(sha256Of(house), i), piece)
		}
	}
	head := clientv3.OpGet(k.root + "head")
	said, err := k.swap([]clientv3.Cmp{k.since("house", 0)}, []clientv3.Op{k.opPut("house", value), head}, clientv3.OpGet(k.root+"house"), head)
	check(err)
	if !said.Succeeded && string(said.Responses[0].GetResponseRange().Kvs[0].Value) != value {
		lost("%s isn't the house file with which the book began", path)
	}
	return headerOf((*clientv3.GetResponse)(said.Responses[1].GetResponseRange()))
}

// house gives the book's house file.
func (k *keys) house() ([]byte, error) {
	value, revision := k.get("house")
	if revision == 0 {
		return nil, fmt.Errorf("etcd has no such book")
	}
	length, digest := 0, ""
	if n, _ := fmt.Sscanf(string(value), houseForm, &length, &digest); n != 2 {
		return value, nil
	}
	all := bytes.Buffer{}
	for i := 0; all.Len() < length; i++ {
		piece, revision := k.get(housePieceKey(digest, i))
		if revision == 0 {
			return nil, fmt.Errorf("piece %d of the house file lacks", i)
		}
		all.Write(piece)
	}
	if sha256Of(all.Bytes()) != digest {
		return nil, fmt.Errorf("the pieces of the house file have the digest %s, and it says %s", sha256Of(all.Bytes()), digest)
	}
	return all.Bytes(), nil
}
