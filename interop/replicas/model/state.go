package main

import "fmt"

const most = 3 // groups of a book

// book is the groups of a history, each by its id; the id of one that was changed is less than 0.
type book struct {
	n   int8
	ids [most]int8
}

func (b book) with(id int8) book {
	b.ids[b.n] = id
	b.n++
	return b
}

// begins is whether a book begins with another.
func (b book) begins(other book) bool {
	for i := int8(0); i < other.n; i++ {
		if i >= b.n || b.ids[i] != other.ids[i] {
			return false
		}
	}
	return true
}

// node is what etcd has: one that is well, however many nodes it is.
type node struct {
	known            bool
	book             book
	writer, adopting int8 // runs; 0 is none
	version          int8 // of the head: it rises with each put
	lock             int8 // a machine and 1; 0 is none
}

type role int8

const (
	down role = iota
	follows
	serves
	hung   // its server stands still
	frozen // its sidecar stands still
	adopts
)

// machine is a file, a note, and what runs there.
type machine struct {
	role   role
	run    int8
	file   book
	seen   int8 // how far the note is
	asked  int8 // the group that is on the disk and wasn't told; 0 is none
	placed int8 // the version that its run put
	word   bool // of the unit: it takes the book over, whoever has the lock
}

// put is a transaction under way.
type put struct{ run, placed, id int8 }

// bounds are how often each thing may happen.
type bounds struct{ crash, hang, freeze, lose, snapshot, adopt, flip, word, depth int8 }

// state is all of it. told is what any firm was told: a group at each place.
type state struct {
	etcd     node
	kept     node // the snapshot
	has      bool // whether there is one
	machines [2]machine
	puts     [2]put
	told     book
	runs     int8
	ids      int8
	left     bounds
}

func (s state) String() string {
	text := fmt.Sprintf("etcd %v, told %v", s.etcd.book.ids[:s.etcd.book.n], s.told.ids[:s.told.n])
	for i, m := range s.machines {
		text += fmt.Sprintf("; %c is %d with %v", 'A'+i, m.role, m.file.ids[:m.file.n])
	}
	return text
}

func named(run int8) string {
	if run == 0 {
		return ""
	}
	return fmt.Sprint(run)
}

// facts are what a transaction of a machine asks etcd.
func (s *state) facts(i int) facts {
	e := s.etcd
	return facts{known: e.known, head: int64(e.book.n), writer: named(e.writer), adopting: named(e.adopting), noLock: e.lock != int8(i+1)}
}

// lost is whether a book lacks what was told.
func (s *state) lost(b book) bool { return !b.begins(s.told) }
