package main

import (
	"os"
	"path/filepath"
	"strings"
	"testing"
)

var d1, d2 = strings.Repeat("1", 64), strings.Repeat("2", 64)

func headAt(entries, length int64, digest string) header {
	return header{known: true, entries: entries, length: length, run: "r", digest: digest}
}

func TestRefusal(t *testing.T) {
	seen := func(revision, length int64) *note {
		return &note{revision: revision, adopted: "-", head: headAt(5, length, d1)}
	}
	none := &note{head: header{entries: -1}}
	begun := &note{head: header{known: true, entries: -1}}
	unknown := header{entries: -1, digest: emptyDigest}
	for _, it := range []struct {
		name     string
		n        *note
		h        header
		revision int64
		s        standing
		words    string
	}{
		{"nothing anywhere", none, unknown, 0, standing{}, ""},
		{"a machine that is new", none, headAt(5, 500, d1), 9, standing{}, ""},
		{"as it was", seen(9, 500), headAt(5, 500, d1), 9, standing{size: 501}, ""},
		{"further", seen(9, 500), headAt(6, 600, d2), 12, standing{size: 501}, ""},
		{"one group that nobody was told of", seen(9, 500), headAt(5, 500, d1), 9, standing{size: 700, behind: 1}, ""},
		{"a beginning that was never put", begun, unknown, 0, standing{size: 300, behind: 1}, ""},
		{"two groups more", none, headAt(5, 500, d1), 9, standing{size: 700, behind: 2}, "2 groups more"},
		{"less than was seen", seen(9, 500), headAt(4, 400, d2), 12, standing{size: 501}, "less than was told"},
		{"an older revision", seen(9, 500), headAt(5, 500, d1), 8, standing{size: 501}, "saw revision 9"},
		{"other bytes", seen(9, 500), headAt(5, 500, d2), 12, standing{size: 501}, "another book"},
		{"no book, and a journal of elsewhere", none, unknown, 0, standing{size: 300, behind: 0}, "no such book"},
		{"no book, and two groups", begun, unknown, 0, standing{size: 300, behind: 2}, "no such book"},
		{"no book, and it was seen", seen(9, 500), unknown, 0, standing{}, "less than was told"},
	} {
		err := it.n.refusal(it.h, it.revision, "-", it.s)
		if (err == nil) != (it.words == "") || err != nil && !strings.Contains(err.Error(), it.words) {
			t.Errorf("%s: %v", it.name, err)
		}
	}
}

func TestAnAdoptionIsAnotherEtcd(t *testing.T) {
	n := &note{revision: 90, adopted: "-", head: headAt(5, 500, d1)}
	if err := n.refusal(headAt(6, 600, d2), 12, "run", standing{size: 501}); err != nil {
		t.Error(err)
	}
	if err := n.refusal(headAt(4, 400, d2), 12, "run", standing{size: 501}); err == nil {
		t.Error("an adoption of less passes")
	}
	n.accepts("run") // as it begins; what was seen before that is still of the other etcd as it goes on
	if err := n.refusal(headAt(6, 600, d2), 12, "run", standing{size: 501}); err != nil {
		t.Error(err)
	}
	n.accepts("run")
	n.revision = 14
	if err := n.refusal(headAt(6, 600, d2), 12, "run", standing{size: 501}); err == nil {
		t.Error("an etcd that went back after the adoption passes")
	}
}

func TestNoteComesBack(t *testing.T) {
	path := filepath.Join(t.TempDir(), "book")
	n := noted(path)
	if n.head.known {
		t.Fatal("a note of nothing is known")
	}
	n.begin()
	if again := noted(path); !again.head.known || again.head.length != 0 || again.head.entries != -1 {
		t.Fatalf("begun, it is %+v", again.head)
	}
	n.see(headAt(7, 700, d1), 12)
	n.adopted = strings.Repeat("a", 32)
	n.see(headAt(8, 800, d2), 13)
	again := noted(path)
	if again.revision != 13 || again.head.entries != 8 || again.head.length != 800 || again.head.digest != d2 || again.adopted != n.adopted {
		t.Fatalf("it is %d %+v", again.revision, again.head)
	}
	text, _ := os.ReadFile(path + ".seen")
	if (&note{}).parse(string(text[:40])) == nil {
		t.Error("half a note passes")
	}
}

func TestStanding(t *testing.T) {
	path := filepath.Join(t.TempDir(), "book")
	whole := int64(len(journal(4)))
	all := append(journal(4), make([]byte, 100)...)
	os.WriteFile(path, all, 0o600)
	for groups := 1; groups <= 4; groups++ {
		if s := standingOf(path, int64(len(journal(groups)))); s.behind != 4-groups || s.size != whole {
			t.Errorf("behind %d groups: %+v", groups, s)
		}
	}
	if s := standingOf(path, 0); s.behind != 4 {
		t.Errorf("from nothing on: %+v", s)
	}
	all[len(journal(2))+20] = bound // in the third group, of which the seal is whole still
	os.WriteFile(path, all, 0o600)
	if s := standingOf(path, int64(len(journal(2)))); s.behind != 2 || s.size != int64(len(journal(2))+20) {
		t.Errorf("behind a zero: %+v", s)
	}
	os.WriteFile(path, make([]byte, 100), 0o600)
	if s := standingOf(path, 0); s.size != 0 || s.behind != 0 {
		t.Errorf("zeros: %+v", s)
	}
	if s := standingOf(path+"x", 0); s.size != 0 || s.behind != 0 {
		t.Errorf("no file: %+v", s)
	}
}
