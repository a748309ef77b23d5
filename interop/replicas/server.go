package main

import (
	"bufio"
	"bytes"
	"fmt"
	"net"
	"os"
	"os/exec"
	"os/signal"
	"path/filepath"
	"runtime"
	"sync/atomic"
	"syscall"
	"time"
)

const (
	quiet  = 300 * time.Millisecond // without a group: then nobody waits for an answer
	linger = time.Second            // for that, at the end
	told   = 200 * time.Millisecond // for the server to send the last answers
	asks   = "?\n"                  // what a server says that asks whether it may go on
	mayGo  = "yes\n"
)

// server is `allocd keep`, and its line.
type server struct {
	process *exec.Cmd
	line    net.Conn
	said    chan string
	status  string
	stops   int32 // 1 once its end is wanted
}

// ended ends this program, where the server wasn't to end.
func (s *server) ended(why error) {
	if atomic.LoadInt32(&s.stops) == 0 {
		lost("the server ended: %v", why)
	}
}

// start starts the server, which connects to this program and says how the book stands.
func start(w wishes, lock *os.File) *server {
	path := short(w.file + ".line")
	door, err := net.Listen("unix", path)
	check(err)
	s := &server{said: make(chan string)}
	status, more := w.statusOf()
	s.status = status
	s.process = exec.Command(program(), append([]string{"keep", w.house, w.file, "--port", w.port, "--replicate", path}, more...)...)
	s.process.SysProcAttr = &syscall.SysProcAttr{Pdeathsig: syscall.SIGKILL, Setpgid: true}
	s.process.Stdout, s.process.Stderr, s.process.ExtraFiles = os.Stdout, os.Stderr, []*os.File{lock}
	check(onThread(s.process.Start))
	ended := make(chan error, 2)
	go func() {
		err := s.process.Wait()
		ended <- err
		time.Sleep(time.Second) // what it said comes first
		s.ended(err)
	}()
	go func() {
		s.hear(door.(*net.UnixListener))
		s.ended(<-ended)
	}()
	return s
}

// onThread has a process started by a thread that lives as long as this program: to its end the process's death is bound.
func onThread(start func() error) error {
	started := make(chan error)
	go func() {
		runtime.LockOSThread()
		started <- start()
		select {}
	}()
	return <-started
}

// hear hands on what the server says, until it says no more.
func (s *server) hear(door *net.UnixListener) {
	door.SetDeadline(time.Now().Add(time.Minute))
	line, err := door.Accept()
	door.Close()
	if err != nil {
		lost("the server didn't connect: %v", err)
	}
	s.line = line
	for from := bufio.NewReader(line); ; {
		words, err := from.ReadString('\n')
		if err != nil {
			return
		}
		s.said <- words
	}
}

// hangUp ends the line to the server: from then on it can tell nobody anything new, also where it can't be killed.
func (s *server) hangUp() {
	if s.line != nil {
		s.line.Close()
	}
}

// short is a path for a socket, which has to be short.
func short(path string) string {
	if len(path) > 100 {
		folder, err := os.MkdirTemp("", "allocd-")
		check(err)
		path = filepath.Join(folder, filepath.Ext(path))
	}
	os.Remove(path)
	return path
}

// program is `allocd`.
func program() string {
	if it := os.Getenv("ALLOCD"); it != "" {
		return it
	}
	return "allocd"
}

// answer does what the server says, and answers it.
func (s *server) answer(words string, b *writer, m *mirror) {
	reply := mayGo
	if words == asks {
		b.stillWrites()
	} else {
		var entries, length int64
		if n, _ := fmt.Sscanf(words, "%d %d\n", &entries, &length); n != 2 {
			lost("the server says %q", words)
		}
		m.open()
		b.offer(m.file, m.sha, entries, length)
		traced("told", b.run, entries, length)
		reply = fmt.Sprintf("%d\n", entries)
	}
	_, err := s.line.Write([]byte(reply))
	check(err)
}

// stillWrites ends this program where another run is the writer, or no node says that none is.
func (w *writer) stillWrites() {
	if found, revision := w.k.get("writer"); revision != w.taken {
		traced("superseded", w.run)
		lost("another run has taken the book over: %s", found)
	}
}

// serve answers the server until one of both ends.
func (s *server) serve(b *writer, l *hold, m *mirror, begun func()) {
	ends := make(chan os.Signal, 1)
	signal.Notify(ends, syscall.SIGTERM, syscall.SIGINT)
	words := ""
	select {
	case words = <-s.said:
	case <-ends:
		atomic.StoreInt32(&s.stops, 1)
		unserved()
	}
	if fields := bytes.Fields([]byte(words)); b.head.known && (len(fields) != 2 || string(fields[1]) != fmt.Sprint(b.head.length)) {
		lost("the server opened with %q, where %d bytes are put", words, b.head.length)
	}
	s.answer(words, b, m)
	atomic.StoreInt64(&b.put, b.head.length)
	begun()
	go b.upkeep(m.path)
	looks := b.k.wakes("writer")
	for {
		select {
		case words := <-s.said:
			s.answer(words, b, m)
		case <-looks:
			b.stillWrites()
		case <-ends:
			s.stop(b, l, m)
		}
	}
}

// stop lets calls be answered: it ends when no group has come for a while, or after one that was answered.
func (s *server) stop(b *writer, l *hold, m *mirror) {
	for end := time.Now().Add(linger); time.Now().Before(end); {
		select {
		case words := <-s.said:
			s.answer(words, b, m)
			continue
		case <-time.After(quiet):
		}
		break
	}
	time.Sleep(told)
	atomic.StoreInt32(&s.stops, 1)
	s.process.Process.Kill()
	l.leave()
	say("stopped with %d entries; %s", b.head.entries, b.figures())
	os.Exit(0)
}
