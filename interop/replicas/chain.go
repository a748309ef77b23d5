package main

import (
	"bytes"
	"crypto/sha512"
	"fmt"
	"hash"
	"io"
	"strconv"
)

// bound is what stands behind the bytes of a journal that count: these have no zero.
const bound = 0

// form is that of a journal whose seals are SHA-512.
const form = "allocd-journal-3"

// chain takes the bytes of a journal, and looks at each seal: it has to be the SHA-512 of what comes before.
type chain struct {
	held    []byte
	at      int64 // of the whole frames, which `sum` has taken in
	sum     hash.Hash
	house   string // the SHA-256 of the house file that the head names
	base    int64  // the number before that of the first entry; -1 until it came
	entries int64  // the number of the last entry; -1 until one came
	seals   int64
	sealed  int64 // where the last seal or the head ends
	within  int64 // the entries up to there
	heed    func(one []byte, at int64) error
}

func newChain() *chain { return &chain{sum: sha512.New(), base: -1, entries: -1, within: -1} }

// again is a chain that has taken in the same.
func (c *chain) again() *chain {
	copy := *c
	copy.held, copy.sum = append([]byte{}, c.held...), cloned(c.sum, sha512.New())
	return &copy
}

// take takes the next bytes.
func (c *chain) take(data []byte) error {
	c.held = append(c.held, data...)
	from := 0
	for {
		one, err := cut(c.held[from:])
		if err != nil {
			return fmt.Errorf("at byte %d: %v", c.at, err)
		}
		if one == nil {
			break
		}
		if err := c.frame(one); err != nil {
			return err
		}
		from += len(one)
	}
	c.held = append([]byte{}, c.held[from:]...)
	return nil
}

// frame takes a whole frame.
func (c *chain) frame(one []byte) error {
	end, kind := c.at+int64(len(one)), field(one, "35")
	switch {
	case c.at == 0:
		if kind != "A" || field(one, "1408") != form {
			return fmt.Errorf("it doesn't begin with the head of a journal of the form %s: %q", form, one)
		}
		c.house, c.sealed = field(one, "58"), end
	case kind == "A":
		return fmt.Errorf("a head stands at byte %d", c.at)
	case kind == "0":
		if seal := digest(c.sum); field(one, "112") != seal {
			return fmt.Errorf("the seal at byte %d says %s, and the bytes before it have %s", c.at, field(one, "112"), seal)
		}
		c.seals, c.sealed, c.within = c.seals+1, end, c.entries
	default:
		if err := c.entry(one); err != nil {
			return err
		}
	}
	c.sum.Write(one)
	c.at = end
	return nil
}

func (c *chain) entry(one []byte) error {
	number, err := strconv.ParseInt(field(one, "34"), 10, 64)
	if err != nil {
		return fmt.Errorf("a frame at byte %d has no number", c.at)
	}
	if c.entries == -1 {
		c.base, c.entries = number-1, number-1
	}
	if c.entries++; number != c.entries {
		return fmt.Errorf("the entry at byte %d is %d, and should be %d", c.at, number, c.entries)
	}
	if c.heed != nil {
		return c.heed(one, c.at)
	}
	return nil
}

// from takes all that a reader has.
func (c *chain) from(in io.Reader) error {
	for piece := make([]byte, 1<<20); ; {
		n, err := in.Read(piece)
		if bad := c.take(piece[:n]); bad != nil {
			return bad
		}
		if err == io.EOF {
			return nil
		}
		if err != nil {
			return err
		}
	}
}

// counted is how many bytes of a file count: those before its first zero.
func counted(file io.ReaderAt) int64 {
	for at, piece := int64(0), make([]byte, 1<<20); ; {
		n, err := file.ReadAt(piece, at)
		if zero := bytes.IndexByte(piece[:n], bound); zero >= 0 {
			return at + int64(zero)
		}
		if at += int64(n); err == io.EOF {
			return at
		}
		check(err)
	}
}

// seals gives the whole seals in the bytes behind a group, wherever one begins: of whole groups, also behind a zero.
func seals(data []byte) [][]byte {
	found := [][]byte{}
	for from := bytes.Index(data, opening); from >= 0; from = bytes.Index(data, opening) {
		one, err := cut(data[from:])
		if err == nil && one != nil && field(one, "35") == "0" {
			found = append(found, one)
		}
		data = data[from+len(opening):]
	}
	return found
}

// isLater is whether a seal is of a later group than the one whose first entry comes behind so many.
func isLater(seal []byte, entries int64) bool {
	return field(seal, "58") != strconv.FormatInt(entries+1, 10)
}
