package main

import (
	"bytes"
	"crypto/sha256"
	"fmt"
	"hash"
	"io"
	"os"
	"path/filepath"
	"sort"
	"syscall"
	"time"
)

// mirror is a journal's file that has a book's beginning: `at` bytes and a zero. Of a book that has nothing yet there is no file: the server begins it.
type mirror struct {
	path, run string
	file      *os.File
	at        int64
	sha       hash.Hash
}

// held takes the lock beside a journal's file. Whoever inherits the descriptor has it too.
func held(path string) *os.File {
	_, err := os.Stat(path + ".lock")
	made := os.IsNotExist(err)
	lock, err := os.OpenFile(path+".lock", os.O_RDWR|os.O_CREATE, 0o600)
	check(err)
	if made {
		ownedAs(path+".lock", filepath.Dir(path))
	}
	for i := 0; ; i++ {
		err = syscall.Flock(int(lock.Fd()), syscall.LOCK_EX|syscall.LOCK_NB)
		if err == nil {
			return lock
		}
		if i == 50 {
			lost("%s is in use: another sidecar or its server has %s.lock", path, path)
		}
		time.Sleep(100 * time.Millisecond)
	}
}

// ownedAs gives a file that root made to whom another one belongs.
func ownedAs(path, like string) {
	it, err := os.Stat(like)
	check(err)
	if owner := it.Sys().(*syscall.Stat_t); os.Getuid() == 0 && owner.Uid != 0 {
		check(os.Chown(path, int(owner.Uid), int(owner.Gid)))
	}
}

// settle has the file be what etcd has: it keeps what is the same, and fetches the rest. What it replaces is laid aside. Says where the bytes came from.
func settle(k *keys, n *note, h header, revision int64, path, run string) (*mirror, string) {
	stands := standingOf(path, h.length)
	permitted(k, n, h, revision, stands, run)
	m := &mirror{path: path, run: run, sha: sha256.New()}
	source := "nothing yet"
	if h.length > 0 {
		m.open()
		source = m.becomes(k, h, stands.size)
	} else {
		m.clear()
	}
	n.agrees(m.file, h)
	if h.known {
		n.see(h, revision)
	}
	return m, source
}

// permitted ends this program where it can't go on with what etcd has, and has the refusal stand in etcd for the others to read.
func permitted(k *keys, n *note, h header, revision int64, s standing, run string) {
	adopted := k.adopted()
	why := n.refusal(h, revision, adopted, s)
	name, _ := os.Hostname()
	if why == nil {
		n.accepts(adopted)
		k.over(name)
		return
	}
	traced("refused", run, n.head.length, h.length, int64(s.behind), int64(one(n.older(revision, adopted))))
	k.swap(nil, []clientOp{k.opPut("alarm/"+name, why.Error())}) // where it can't be put, the line says it
	lost("%v", why)
}

// open has the file open, which is made where none is there.
func (m *mirror) open() {
	if m.file == nil {
		file, err := os.OpenFile(m.path, os.O_RDWR|os.O_CREATE, 0o600)
		check(err)
		m.file = file
	}
}

// clear takes away the file of a book that has nothing yet: what stands there, a group of which nobody was told, is laid aside.
func (m *mirror) clear() {
	file, err := os.Open(m.path)
	if os.IsNotExist(err) {
		return
	}
	check(err)
	defer file.Close()
	if stood := bytes.TrimRight(rest(file, 0), "\x00"); len(stood) > 0 {
		m.layAside(stood, 0)
	}
	check(os.Remove(m.path))
	syncFolder(m.path)
}

// layAside keeps bytes that stood from there on.
func (m *mirror) layAside(stood []byte, from int64) {
	check(os.WriteFile(m.path+"."+m.run+".cut", stood, 0o600))
	say("%d bytes behind byte %d, %s, are laid aside in %s.%s.cut", len(stood), from, m.unlike(from), m.path, m.run)
}

func (m *mirror) becomes(k *keys, h header, size int64) string {
	if m.has(h, size) {
		m.mend(m.at, nil)
		return "all of it from the file"
	}
	for _, r := range m.marks(k, h, size) {
		from := r.at
		tail, err := r.rest()
		if err != nil {
			continue
		}
		m.at, m.sha = r.at, r.sha
		m.mend(from, tail)
		return fmt.Sprintf("the last %d bytes from etcd", len(tail))
	}
	m.fetch(k, size)
	return "all of it from etcd"
}

// has tells whether the file begins with all of the book; nobody has to be asked for that.
func (m *mirror) has(h header, size int64) bool {
	if size < h.length {
		return false
	}
	m.at, m.sha = h.length, sha256.New()
	_, err := io.Copy(m.sha, io.NewSectionReader(m.file, 0, h.length))
	check(err)
	return digest(m.sha) == h.digest
}

// marks are the places up to which the file may be etcd's, the last first, each with what comes before it taken in: the file's end, and where
// pieces begin. So of a file whose last group was never put, or isn't whole, what comes before that group is kept.
func (m *mirror) marks(k *keys, h header, size int64) []*reader {
	places := []int64{}
	for _, place := range append(k.beginnings(clamp(h.length, 0, size)), size) {
		if place > 0 && place <= h.length && place <= size {
			places = append(places, place)
		}
	}
	sort.Slice(places, func(i, j int) bool { return places[i] < places[j] })
	marks, sha, at := []*reader{}, sha256.New(), int64(0)
	for _, place := range places {
		_, err := io.Copy(sha, io.NewSectionReader(m.file, at, place-at))
		check(err)
		at = place
		r := k.reader()
		r.at, r.sha = at, cloned(sha, sha256.New())
		marks = append([]*reader{r}, marks...)
	}
	return marks
}

// mend writes what lacks from there on, and cuts off what is behind it. Zeros that stand there already stay.
func (m *mirror) mend(from int64, tail []byte) {
	wanted, stood := m.end(tail), rest(m.file, from)
	cut := bytes.TrimRight(stood, "\x00")
	if bytes.Equal(cut, tail) && len(stood) >= len(wanted) {
		return
	}
	if len(cut) > 0 && !bytes.HasPrefix(tail, cut) {
		m.layAside(cut, from)
	}
	_, err := m.file.WriteAt(wanted, from)
	check(err)
	check(m.file.Truncate(from + int64(len(wanted))))
	check(m.file.Sync())
}

// unlike says what the bytes from there on are that go: a group of which nobody was told, or ones that etcd has otherwise.
func (m *mirror) unlike(from int64) string {
	if from < m.at {
		return "which aren't what etcd has"
	}
	return "which nobody was told of"
}

// end are these bytes as they stand at the file's end.
func (m *mirror) end(tail []byte) []byte {
	return append(append([]byte{}, tail...), bound)
}

// fetch has all of the book from etcd. A file that is there is laid aside.
func (m *mirror) fetch(k *keys, size int64) {
	check(m.file.Close())
	if size > 0 {
		check(os.Rename(m.path, m.path+"."+m.run+".old"))
		say("%s isn't what etcd has, and is laid aside as %s.%s.old", m.path, m.path, m.run)
	}
	file, err := os.OpenFile(m.path+".new", os.O_RDWR|os.O_CREATE|os.O_TRUNC, 0o600)
	check(err)
	m.file = file
	r := k.reader()
	for {
		data, h, err := r.next()
		check(err)
		_, err = file.Write(data)
		check(err)
		if m.at, m.sha = r.at, r.sha; r.at == h.length {
			_, err = file.Write(m.end(nil))
			check(err)
			m.sync()
			check(os.Rename(m.path+".new", m.path))
			syncFolder(m.path)
			return
		}
	}
}

// add puts the next bytes of the book behind those that are there.
func (m *mirror) add(data []byte) {
	if len(data) == 0 {
		return
	}
	m.open()
	_, err := m.file.WriteAt(append(append([]byte{}, data...), bound), m.at)
	check(err)
	m.at += int64(len(data))
}

func (m *mirror) sync() {
	if m.file != nil {
		check(m.file.Sync())
	}
}

func (m *mirror) close() {
	if m.file != nil {
		m.file.Close()
	}
}

// syncFolder has a file's name on the disk.
func syncFolder(path string) {
	folder, err := os.Open(filepath.Dir(path))
	check(err)
	check(folder.Sync())
	folder.Close()
}
