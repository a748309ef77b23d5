package main

import (
	"crypto/sha256"
	"errors"
	"fmt"
	"io"
	"os"
	"sync"
	"time"
)

// note is what a machine has seen of a book, beside the journal's file: the highest revision of `head`, and how far the book was there. It is written
// at each group that was acknowledged or followed, and is on the disk within a second. An etcd that has less went back.
type note struct {
	path     string
	guard    sync.Mutex
	file     *os.File
	revision int64
	adopted  string // the run that adopted the book last: from then on revisions are those of another etcd
	head     header
	changed  bool
}

const (
	noteForm   = "%020d %012d %012d %s %32s\n"
	notAdopted = "-"
)

// noted reads the note beside a file; one of nothing where there is none.
func noted(path string) *note {
	n := &note{path: path + ".seen", adopted: notAdopted, head: header{entries: -1, digest: emptyDigest}}
	text, err := os.ReadFile(n.path)
	if errors.Is(err, os.ErrNotExist) {
		return n
	}
	check(err)
	if err := n.parse(string(text)); err != nil {
		lost("%s is no note of what was seen: %v; look at it", n.path, err)
	}
	return n
}

func (n *note) parse(text string) error {
	h := header{known: true}
	count, err := fmt.Sscanf(text, "%d %d %d %s %s\n", &n.revision, &h.entries, &h.length, &h.digest, &n.adopted)
	if err == nil && (count != 5 || len(h.digest) != 64) {
		err = fmt.Errorf("%q", text)
	}
	n.head = h
	return err
}

func (n *note) text() string {
	return fmt.Sprintf(noteForm, n.revision, n.head.entries, n.head.length, n.head.digest, n.adopted)
}

// begin has the note be there, on the disk: from now on what stands in the file may come from this program's server.
func (n *note) begin() {
	if n.file != nil {
		return
	}
	n.head.known = true
	check(os.WriteFile(n.path+".new", []byte(n.text()), 0o600))
	file, err := os.OpenFile(n.path+".new", os.O_RDWR, 0)
	check(err)
	check(file.Sync())
	check(os.Rename(n.path+".new", n.path))
	syncFolder(n.path)
	n.file = file
	go n.keep()
}

// see takes in a head.
func (n *note) see(h header, revision int64) {
	n.guard.Lock()
	defer n.guard.Unlock()
	if n.revision, n.head, n.changed = revision, h, true; n.file == nil {
		return
	}
	_, err := n.file.WriteAt([]byte(n.text()), 0)
	check(err)
}

// keep has the note on the disk within a second.
func (n *note) keep() {
	for range time.Tick(500 * time.Millisecond) {
		n.guard.Lock()
		changed := n.changed
		n.changed = false
		n.guard.Unlock()
		if changed {
			check(n.file.Sync())
		}
	}
}

// standing is what stands in a journal's file: how many bytes count, and how many groups behind a length.
type standing struct {
	path   string
	size   int64
	behind int
}

func standingOf(path string, length int64) standing {
	s := standing{path: path}
	file, err := os.Open(path)
	if errors.Is(err, os.ErrNotExist) {
		return s
	}
	check(err)
	defer file.Close()
	s.size = counted(file)
	s.behind = len(seals(rest(file, length)))
	return s
}

// rest gives what stands in a file from a byte on, also behind what counts.
func rest(file *os.File, from int64) []byte {
	size, err := file.Seek(0, io.SeekEnd)
	check(err)
	data := make([]byte, clamp(size-from, 0, size))
	_, err = file.ReadAt(data, from)
	if len(data) > 0 {
		check(err)
	}
	return data
}

// accepts takes in that the machine goes on with what etcd has: where the book was adopted since, revisions are those of another etcd.
func (n *note) accepts(adopted string) {
	if n.adopted != adopted {
		n.adopted, n.revision = adopted, 0
	}
}

// older is whether the head was put before what was seen, in the same etcd.
func (n *note) older(revision int64, adopted string) bool {
	return n.head.known && n.head.length > 0 && n.revision > revision && n.adopted == adopted
}

// refusal is why a machine whose file stands so can't go on with what etcd has. At most one group is untold at a time, so where more than one stands
// behind the head, or the note has more, the others were told.
func (n *note) refusal(h header, revision int64, adopted string, s standing) error {
	if !h.known && s.size > 0 && (!n.head.known || n.head.length > 0 || s.behind > 1) {
		return fmt.Errorf("%s has %d bytes, and etcd has no such book: has etcd lost it? `adopt` begins the book with this file", s.path, s.size)
	}
	had := fmt.Sprintf("etcd has less than was told: its book has %d entries in %d bytes", h.entries, h.length)
	what := fmt.Sprintf("see \"An etcd that went back\" in replicas.md; `adopt` puts what %s has", s.path)
	switch {
	case n.head.known && n.head.length > h.length:
		return fmt.Errorf("%s, and this machine saw %d in %d; %s", had, n.head.entries, n.head.length, what)
	case n.older(revision, adopted):
		return fmt.Errorf("%s, put in revision %d, and this machine saw revision %d; %s", had, revision, n.revision, what)
	case n.head.known && n.head.length == h.length && h.length > 0 && n.head.digest != h.digest:
		return fmt.Errorf("etcd has another book than was told: %d bytes with %s, and this machine saw %s; %s", h.length, h.digest, n.head.digest, what)
	case s.behind > 1:
		return fmt.Errorf("%s, and %s has %d groups more, of which one alone can be untold; %s", had, s.path, s.behind, what)
	}
	return nil
}

// agrees refuses a file, which is what etcd has, where it doesn't go on from what was seen.
func (n *note) agrees(file *os.File, h header) {
	if !n.head.known || n.head.length == 0 || n.head.length == h.length {
		return
	}
	sum := sha256.New()
	_, err := io.Copy(sum, io.NewSectionReader(file, 0, n.head.length))
	check(err)
	if digest(sum) != n.head.digest {
		lost("etcd has another book than was told: its first %d bytes have %s, and this machine saw %s; see \"An etcd that went back\" in replicas.md",
			n.head.length, digest(sum), n.head.digest)
	}
}
