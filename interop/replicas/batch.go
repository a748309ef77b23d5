package main

import (
	"bytes"
	"io"
	"os"
	"os/exec"
	"strconv"
	"strings"
	"time"
)

const batchWait = time.Minute // for an answer of `allocd batch`

// batch is `allocd batch` on a book's house file, by which each entry has to be accepted. That it is slow or ends is this machine's trouble, and no
// alarm: only what it says of the book is.
type batch struct {
	w       *witness
	process *exec.Cmd
	in      *os.File
	said    bytes.Buffer // on standard error
	answers chan []byte
	heard   int64 // the number of the last entry that was answered; -1 before the first
}

func startBatch(w *witness, house []byte) *batch {
	file, err := os.CreateTemp("", "allocd-house-")
	check(err)
	_, err = file.Write(house)
	check(err)
	b := &batch{w: w, heard: -1, answers: make(chan []byte, 1<<16)}
	b.process = exec.Command(program(), "batch", file.Name())
	b.process.Stderr = &b.said
	from, in, err := os.Pipe()
	check(err)
	b.process.Stdin, b.in = from, in
	out, err := b.process.StdoutPipe()
	check(err)
	check(b.process.Start())
	from.Close()
	go func() {
		b.read(out)
		b.ends(b.process.Wait())
	}()
	go func() {
		time.Sleep(batchWait) // it has read its file long before
		os.Remove(file.Name())
	}()
	return b
}

// ends says why the batch ended: a stream that it doesn't take is the book's fault, anything else isn't.
func (b *batch) ends(why error) {
	if text := strings.TrimSpace(b.said.String()); strings.HasPrefix(text, "stream ") {
		b.w.alarm("allocd batch: %s", text)
	} else {
		lost("allocd batch ended: %v %s", why, text)
	}
}

// read takes the batch's answers.
func (b *batch) read(out io.Reader) {
	held, piece := []byte{}, make([]byte, 1<<16)
	for {
		n, err := out.Read(piece)
		held = append(held, piece[:n]...)
		for {
			one, err := cut(held)
			if err != nil {
				lost("allocd batch: %v", err)
			}
			if one == nil {
				break
			}
			held = held[len(one):]
			b.answers <- append([]byte{}, one...)
		}
		if err != nil {
			return
		}
	}
}

// ask gives an entry to the batch, and takes the answers that are there.
func (b *batch) ask(one []byte, _ int64) error {
	if b.heard == -1 {
		number, _ := strconv.ParseInt(field(one, "34"), 10, 64)
		b.heard = number - 1
	}
	b.in.SetWriteDeadline(time.Now().Add(batchWait))
	if _, err := b.in.Write(one); os.IsTimeout(err) {
		lost("allocd batch takes nothing any more, behind entry %d", b.heard)
	} else if err != nil {
		select {} // it has ended: `ends` says why
	}
	for len(b.answers) > 0 {
		b.hear(<-b.answers)
	}
	return nil
}

// hearAll waits until the batch has answered all entries.
func (b *batch) hearAll(c *chain) {
	for b.heard < c.entries {
		select {
		case one := <-b.answers:
			b.hear(one)
		case <-time.After(batchWait):
			lost("allocd batch doesn't answer entry %d", b.heard+1)
		}
	}
}

// hear takes an answer of the batch: the entry has to be accepted, with its number.
func (b *batch) hear(one []byte) {
	number := field(one, "793")
	if field(one, "35") == "AR" {
		number = strings.TrimPrefix(field(one, "58"), "entry ")
	}
	if b.heard++; number != strconv.FormatInt(b.heard, 10) {
		b.w.alarm("entry %d isn't what the rules give: %s", b.heard, bytes.ReplaceAll(one, []byte{1}, []byte{'|'}))
	}
}
