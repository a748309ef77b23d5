package main

import (
	"crypto/sha256"
	"strings"
	"testing"
)

func TestTook(t *testing.T) {
	sum := sha256.New()
	sum.Write([]byte("abc"))
	whole := header{known: true, length: 3, digest: digest(sum)}
	for _, it := range []struct {
		name, data string
		at         int64
		head       header
		why        string
	}{
		{"all of it", "abc", 0, whole, ""},
		{"a part of it", "a", 0, whole, ""},
		{"nothing more", "", 0, whole, "no piece at 0"},
		{"other bytes", "abd", 0, whole, "the digest of the first 3 bytes"},
		{"more than the head says", "abcd", 0, whole, "more than the 3 bytes"},
		{"less than was read", "", 500, whole, "etcd has less than was told: its book has 3 bytes, and it was read to 500"},
	} {
		r := &reader{at: it.at, sha: sha256.New()}
		err := r.took([]byte(it.data), it.head)
		if (err == nil) != (it.why == "") || err != nil && !strings.Contains(err.Error(), it.why) {
			t.Errorf("%s: %v", it.name, err)
		}
	}
}

func TestUnlike(t *testing.T) {
	m := &mirror{at: 100}
	if words := m.unlike(99); !strings.Contains(words, "aren't what etcd has") {
		t.Error(words)
	}
	if words := m.unlike(100); !strings.Contains(words, "nobody was told of") {
		t.Error(words)
	}
}
