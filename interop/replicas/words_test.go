package main

import (
	"bytes"
	"net/http"
	"reflect"
	"strings"
	"testing"
	"time"
)

func TestAsked(t *testing.T) {
	a, ok := asked(strings.Fields("run H F B --port 5001 --hang 20 --workers 2 -- --log-calls --status S"))
	if !ok || a.house != "H" || a.file != "F" || a.book != "B" || a.port != "5001" || a.hang != 20 || a.ttl != 5 {
		t.Fatalf("%+v", a)
	}
	status, words := a.statusOf()
	if status != "S" || !reflect.DeepEqual(words, strings.Fields("--workers 2 --log-calls --status S")) {
		t.Errorf("%s %v", status, words)
	}
	if a, _ = asked(strings.Fields("run H F B --port 5001")); true {
		if status, words := a.statusOf(); status != "F.status" || !reflect.DeepEqual(words, []string{"--status", "F.status"}) {
			t.Errorf("%s %v", status, words)
		}
	}
	if a, ok := asked([]string{"adopt", "es"}); !ok || a.house != "/etc/allocd/es.house" || a.file != "/var/lib/allocd/es" {
		t.Errorf("%+v", a)
	}
	for _, wrong := range []string{"", "run H F B", "run H F B --port", "run H F B --port 1 --ttl 1", "run H F B --port 1 --hang 5", "run H F B --port 1 --now",
		"run H F B --port 1 --adopt", "watch B", "watch B N --port 1", "show", "show a b", "adopt a b", "takeover", "version 1", "else"} {
		if _, ok := asked(strings.Fields(wrong)); ok {
			t.Errorf("%q passes", wrong)
		}
	}
}

func TestParsed(t *testing.T) {
	if h, ok := parsed([]byte("5 500 run " + d1)); !ok || h.entries != 5 || h.length != 500 || h.digest != d1 || h.String() != "5 500 run "+d1 {
		t.Errorf("%+v", h)
	}
	for _, wrong := range []string{"", "-1 0 run " + d1, "5 0 run " + d1, "5 500 run", "5 500 run x", "x 500 run " + d1} {
		if _, ok := parsed([]byte(wrong)); ok {
			t.Errorf("%q passes for a head", wrong)
		}
	}
}

func TestPulse(t *testing.T) {
	began, hang := time.Unix(1000, 0), 10*time.Second
	at := func(s float64) time.Time { return began.Add(time.Duration(s * float64(time.Second))) }
	p := pulse{well: began}
	for _, it := range []struct {
		at     float64
		status int
		stands bool
	}{{1, 200, false}, {9, 0, false}, {10.9, 0, false}, {11, 0, true}, {11.5, 200, false}, {12, 503, false}, {16, 503, false}, {17, 503, true},
		{18, 200, false}, {20, 503, false}, {21, 200, false}, {25, 503, false}, {27, 0, false}, {30, 0, true}} {
		if p.saw(at(it.at), it.status, "why"); p.stands(at(it.at), hang) != it.stands {
			t.Errorf("after %v s: %v", it.at, !it.stands)
		}
	}
	if p.saw(at(40), http.StatusOK, ""); p.says != "" {
		t.Error("it says why, and is well")
	}
}

func TestWaits(t *testing.T) {
	sum := time.Duration(0)
	for count := 0; count < 20; count++ {
		wait := waitAfter(count)
		if wait > mostWait || wait < waitAfter(count-1) && count > 0 {
			t.Errorf("after %d: %v", count, wait)
		}
		sum += wait
	}
	if waitAfter(0) != 0 || waitAfter(19) != mostWait || sum < 60*time.Second {
		t.Errorf("in all %v", sum)
	}
}

func TestHouse(t *testing.T) {
	for _, size := range []int{10, wholeHouse, wholeHouse + 1, 16 << 20} {
		house := bytes.Repeat([]byte("G"), size)
		value, pieces := pinned(house)
		if size <= wholeHouse && (value != string(house) || pieces != nil) || size > wholeHouse && strings.Join(pieces, "") != string(house) {
			t.Errorf("%d bytes are %d pieces", size, len(pieces))
		}
		for _, it := range pieces {
			if len(it) > housePiece {
				t.Errorf("a piece of %d", len(it))
			}
		}
	}
	if n := openingOf([]byte("GIVEUP 2\nHOUSE H\nAGREEMENT A B 1 1\nAGREEMENT B A 1 1\n")); n != 2 {
		t.Errorf("it begins with %d", n)
	}
	if n := openingOf([]byte("GIVEUP 1\nHOUSE H\nAGREEMENT A B 1 1\n")); n != 0 {
		t.Errorf("it begins with %d", n)
	}
}

func TestMemory(t *testing.T) {
	path := t.TempDir() + "/memory"
	data := journal(3)
	m := remembered(path)
	m.keep(header{entries: 2, length: int64(len(journal(2))), digest: sha256Of(journal(2))})
	for size := 1; size < len(data); size += 41 {
		m = remembered(path)
		for at := 0; at < len(data); at += size {
			if err := m.take(data[at:min(at+size, len(data))]); err != nil {
				t.Fatal(err)
			}
		}
	}
	other := append([]byte{}, data...)
	other[30] ^= 1
	if m = remembered(path); m.take(other) == nil {
		t.Error("other bytes pass")
	}
}

func TestFigures(t *testing.T) {
	f := &figures{puts: make([]int64, len(buckets)+1)}
	f.setRole("follows")
	f.follows(300, headAt(9, 400, d1))
	f.setNodes(2, 3)
	f.setPut(4*time.Millisecond, 9)
	f.setPut(3*time.Second, 10)
	for _, line := range []string{`allocd_sidecar_role{role="follows"} 1`, `allocd_sidecar_role{role="serves"} 0`,
		"allocd_sidecar_nodes_answering 2", "allocd_sidecar_entries 10",
		"allocd_sidecar_entries_behind 0", `allocd_sidecar_put_seconds_bucket{le="0.005"} 1`, `allocd_sidecar_put_seconds_bucket{le="2.5"} 1`,
		`allocd_sidecar_put_seconds_bucket{le="+Inf"} 2`, "allocd_sidecar_put_slowest_seconds 3"} {
		if !strings.Contains(f.text(), line+"\n") {
			t.Errorf("%s lacks in\n%s", line, f.text())
		}
	}
}
