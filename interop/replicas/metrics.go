package main

import (
	"crypto/x509"
	"encoding/pem"
	"fmt"
	"net"
	"net/http"
	"os"
	"strconv"
	"strings"
	"sync"
	"time"
)

var buckets = []float64{0.001, 0.0025, 0.005, 0.01, 0.025, 0.05, 0.1, 0.25, 0.5, 1, 2.5}

// figures are what an operator is shown of this program.
type figures struct {
	guard            sync.Mutex
	role             string
	lock             bool
	entries, behind  int64
	bytesBehind      int64
	answering, nodes int
	expires          time.Time // the first of the certificates; none without
	puts             []int64   // in each bucket, and in all
	putTime, slowest time.Duration
}

var (
	shown = &figures{puts: make([]int64, len(buckets)+1)}
	roles = []string{"starts", "follows", "serves", "watches"}
)

func (f *figures) do(change func()) {
	f.guard.Lock()
	change()
	f.guard.Unlock()
}

func (f *figures) setRole(role string) { f.do(func() { f.role = role }) }

func (f *figures) setLock(had bool) { f.do(func() { f.lock = had }) }

func (f *figures) setNodes(answering, nodes int) {
	f.do(func() { f.answering, f.nodes = answering, nodes })
}

// answers says how many nodes answer.
func (f *figures) answers() string {
	f.guard.Lock()
	defer f.guard.Unlock()
	return fmt.Sprintf("%d of %d nodes of etcd answer", f.answering, f.nodes)
}

// follows takes in how far a reader is, and what the head says.
func (f *figures) follows(at int64, h header) {
	f.do(func() {
		if f.bytesBehind = h.length - at; at == h.length {
			f.entries = h.entries
		}
		f.behind = h.entries - f.entries
	})
}

// setPut takes in how long a group took, and how many entries the book has then.
func (f *figures) setPut(took time.Duration, entries int64) {
	f.do(func() {
		f.entries, f.behind, f.bytesBehind = entries, 0, 0
		for i, most := range buckets {
			if took.Seconds() <= most {
				f.puts[i]++
			}
		}
		f.puts[len(buckets)]++
		if f.putTime += took; took > f.slowest {
			f.slowest = took
		}
	})
}

// expires takes in certificates: an authority's text, and one of its own.
func expires(authority []byte, own []byte) {
	blocks := [][]byte{own}
	for one, more := pem.Decode(authority); one != nil; one, more = pem.Decode(more) {
		blocks = append(blocks, one.Bytes)
	}
	for _, it := range blocks {
		certificate, err := x509.ParseCertificate(it)
		if err != nil {
			continue
		}
		shown.do(func() {
			if shown.expires.IsZero() || certificate.NotAfter.Before(shown.expires) {
				shown.expires = certificate.NotAfter
			}
		})
	}
}

// expiry is a word for one who gets no answer, where a certificate has expired.
func expiry() string {
	shown.guard.Lock()
	defer shown.guard.Unlock()
	if shown.expires.IsZero() || time.Now().Before(shown.expires) {
		return ""
	}
	return fmt.Sprintf(" (a certificate of TLS has expired, on %s)", shown.expires.Format("2006-01-02"))
}

func (f *figures) text() string {
	f.guard.Lock()
	defer f.guard.Unlock()
	out := &strings.Builder{}
	gauge := func(name, help string, value interface{}) {
		fmt.Fprintf(out, "# HELP allocd_sidecar_%s %s\n# TYPE allocd_sidecar_%s gauge\nallocd_sidecar_%s %v\n", name, help, name, name, value)
	}
	fmt.Fprint(out, "# HELP allocd_sidecar_role 1 for what this program does.\n# TYPE allocd_sidecar_role gauge\n")
	for _, role := range roles {
		fmt.Fprintf(out, "allocd_sidecar_role{role=%q} %d\n", role, one(role == f.role))
	}
	gauge("lock", "1 where this machine has the book's lock.", one(f.lock))
	gauge("entries", "Entries that were put, followed, or agreed with.", f.entries)
	gauge("entries_behind", "Entries of the book that aren't followed yet.", f.behind)
	gauge("bytes_behind", "Bytes of the book that aren't followed yet.", f.bytesBehind)
	gauge("nodes", "Nodes of etcd.", f.nodes)
	gauge("nodes_answering", "Nodes of etcd that answer.", f.answering)
	if !f.expires.IsZero() {
		gauge("certificate_days", "Days until the first certificate of TLS expires.", int(time.Until(f.expires).Hours()/24))
	}
	gauge("put_slowest_seconds", "The longest put of a group.", f.slowest.Seconds())
	fmt.Fprint(out, "# HELP allocd_sidecar_put_seconds How long puts of groups took.\n# TYPE allocd_sidecar_put_seconds histogram\n")
	for i, most := range buckets {
		fmt.Fprintf(out, "allocd_sidecar_put_seconds_bucket{le=\"%v\"} %d\n", most, f.puts[i])
	}
	all := f.puts[len(buckets)]
	fmt.Fprintf(out, "allocd_sidecar_put_seconds_bucket{le=\"+Inf\"} %d\n", all)
	fmt.Fprintf(out, "allocd_sidecar_put_seconds_sum %v\nallocd_sidecar_put_seconds_count %d\n", f.putTime.Seconds(), all)
	return out.String()
}

func one(holds bool) int {
	if holds {
		return 1
	}
	return 0
}

// answer answers for the figures, on a port of 127.0.0.1 or a socket, if that is wanted.
func (f *figures) answer(at, role string) {
	f.setRole(role)
	if at == "" {
		return
	}
	kind := "unix"
	if _, err := strconv.Atoi(at); err == nil {
		kind, at = "tcp", "127.0.0.1:"+at
	} else {
		os.Remove(at)
	}
	door, err := net.Listen(kind, at)
	check(err)
	pages := http.NewServeMux()
	pages.HandleFunc("/metrics", func(w http.ResponseWriter, _ *http.Request) {
		w.Header().Set("Content-Type", "text/plain; version=0.0.4")
		fmt.Fprint(w, f.text())
	})
	go http.Serve(door, pages)
}
