// sidecar puts the journal of `allocd keep` on the nodes of etcd while it is written, and reads it there (interop/replicas/README.md).
package main

import (
	"fmt"
	"os"
	"sync"

	"go.etcd.io/etcd/etcdserver/api/v3rpc/rpctypes"
)

const usage = `sidecar run HOUSE FILE BOOK --port PORT [--workers N] [--ttl SECONDS] [--hang SECONDS] [--metrics PORT|PATH] [-- WORD..]
sidecar adopt HOUSE FILE BOOK, or adopt BOOK
sidecar takeover FILE BOOK, or takeover BOOK
sidecar watch BOOK NAME [--memory FILE] [--metrics PORT|PATH]
sidecar show BOOK
sidecar state BOOK
sidecar version

run waits for the book's lock, and follows the book into FILE meanwhile; then it takes the book over and runs 'allocd keep' on it, with
the words after --. Where that stands still for --hang seconds (10) it ends it, and gives the lock up.
adopt puts a FILE of which etcd has less, or nothing, and ends. takeover has the machine's own 'run' on FILE take the book over at once.
With BOOK alone HOUSE is /etc/allocd/BOOK.house, and FILE /var/lib/allocd/BOOK.
watch compares all digests and runs 'allocd batch' as the book grows. Where something isn't as it must be, or isn't what it agreed to
before (--memory), it ends with status 3; status 1 is a trouble of its own. --metrics answers Prometheus, on 127.0.0.1 or a socket.
show writes the journal, and a zero behind it, on standard output; state says how far it is.

ETCD in the environment names the nodes (HOST:PORT,..), TLS the files CA,CERTIFICATE,KEY; ALLOCD is the program.
QUOTA is the nodes' --quota-backend-bytes, for the alarm (2147483648, as etcd's own, if not given).
Without ETCD /etc/allocd/etcd.conf says ETCD and QUOTA, and TLS is of /etc/allocd/etcd: ca.pem, BOOK.pem, BOOK.key.
TRACE names a file to which a line is added for each thing that this program has etcd do, and that it answers.`

var version = "unknown"

// say writes a line on standard error.
func say(words string, more ...interface{}) {
	fmt.Fprintf(os.Stderr, "sidecar: "+words+"\n", more...)
}

// leave gives the lock up, once there is one.
var leave = func() {}

// losing is taken by the first one who finds that nothing can be gone on with: what others find then comes of that.
var losing sync.Mutex

// lost says why nothing can be gone on with, and ends with status 1. A server that was started ends with this program. The lock is given up before
// that: a disk that stands still may have the log too.
func lost(words string, more ...interface{}) {
	losing.Lock()
	leave()
	say(words, more...)
	os.Exit(1)
}

func check(err error) {
	if err != nil && rpctypes.Error(err) == rpctypes.ErrNoSpace {
		lost("etcd has no room: its database has reached the quota. Compact it, defragment it, and disarm the alarm")
	}
	if err != nil {
		lost("%v", err)
	}
}

func misused() {
	fmt.Fprintln(os.Stderr, usage)
	os.Exit(2)
}

func main() {
	a, ok := asked(os.Args[1:])
	if !ok {
		misused()
	}
	switch a.word {
	case "run":
		run(a.wishes)
	case "adopt":
		adopt(a.wishes)
	case "takeover":
		takeover(a.wishes)
	case "watch":
		watch(a)
	case "show":
		show(a.book)
	case "state":
		state(a.book)
	case "version":
		fmt.Println(version)
	}
}

// state says how far the book is, who writes, and how large etcd's database is.
func state(book string) {
	k := newKeys(book)
	h, _ := k.head()
	if !h.known {
		lost("etcd has no book %s", book)
	}
	writer, _ := k.get("writer")
	lock, _ := k.get("lock")
	fmt.Printf("%d entries, %d bytes, %s; written by %s; the lock has %q\n", h.entries, h.length, h.digest, writer, lock)
	if run, _ := k.get("adopting"); run != nil {
		fmt.Printf("an adoption isn't over: %s\n", run)
	}
	for _, node := range k.nodes {
		used, errors, err := k.size(node, askWait)
		if err != nil {
			fmt.Printf("%s: %v\n", node, err)
			continue
		}
		fmt.Printf("%s: %d of %d bytes %v\n", node, used, quota(), errors)
	}
}
