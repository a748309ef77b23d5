package main

import (
	"crypto/sha512"
	"fmt"
	"strings"
	"testing"
)

// framed makes a frame of fields with | between them.
func framed(body string) []byte {
	body = strings.ReplaceAll(body, "|", "\x01")
	text := fmt.Sprintf("8=FIXT.1.1\x019=%d\x01%s", len(body), body)
	sum := 0
	for _, it := range []byte(text) {
		sum += int(it)
	}
	return []byte(fmt.Sprintf("%s10=%03d\x01", text, sum%256))
}

// journal is one of so many groups, each of one entry, to its last seal.
func journal(groups int) []byte {
	data := framed("35=A|1408=" + form + "|58=house|")
	for i := 1; i <= groups; i++ {
		data = append(data, framed(fmt.Sprintf("35=AE|34=%d|", i))...)
		data = append(data, framed(fmt.Sprintf("35=0|112=%x|58=%d|", sha512.Sum512(data), i))...)
	}
	return data
}

func TestCut(t *testing.T) {
	one := framed("35=0|112=x|")
	for n := 0; n < len(one); n++ {
		if got, err := cut(one[:n]); got != nil || err != nil {
			t.Fatalf("the first %d bytes give %q, %v", n, got, err)
		}
	}
	if got, err := cut(append(one, "more"...)); string(got) != string(one) || err != nil {
		t.Fatalf("got %q, %v", got, err)
	}
	for _, wrong := range []string{"9=FIXT", "8=FIX.4.4|9=5|aaaaaaa", strings.Replace(string(one), "112=x", "112=y", 1)} {
		if _, err := cut([]byte(wrong)); err == nil {
			t.Errorf("%q passes for a frame", wrong)
		}
	}
}

func TestField(t *testing.T) {
	one := framed("35=AE|34=7|58=a=b|")
	for tag, value := range map[string]string{"35": "AE", "34": "7", "58": "a=b", "99": ""} {
		if got := field(one, tag); got != value {
			t.Errorf("%s is %q", tag, got)
		}
	}
}

func TestChainTakesAnyPieces(t *testing.T) {
	data := journal(5)
	for size := 1; size < len(data); size += 37 {
		c := newChain()
		for at := 0; at < len(data); at += size {
			if err := c.take(data[at:min(at+size, len(data))]); err != nil {
				t.Fatal(err)
			}
		}
		if c.entries != 5 || c.within != 5 || c.base != 0 || c.seals != 5 || c.sealed != int64(len(data)) || c.house != "house" {
			t.Fatalf("by %d: %d entries, %d seals, %d bytes", size, c.entries, c.seals, c.sealed)
		}
	}
}

func TestChainFindsChanges(t *testing.T) {
	data := journal(3)
	wrong := map[string][]byte{
		"a digit, its sum mended": []byte(strings.Replace(string(data), string(framed("35=AE|34=2|")), string(framed("35=AE|34=2|1=A|")), 1)),
		"an entry that lacks":     []byte(strings.Replace(string(data), string(framed("35=AE|34=2|")), "", 1)),
		"a second head":           append(journal(1), journal(1)...),
		"no head":                 framed("35=AE|34=1|"),
	}
	for name, it := range wrong {
		if newChain().take(it) == nil {
			t.Errorf("%s isn't found", name)
		}
	}
}

func TestAgainIsApart(t *testing.T) {
	data, c := journal(4), newChain()
	at := len(journal(2))
	c.take(data[:at])
	other := c.again()
	if err := other.take(data[at:]); err != nil || other.seals != 4 || c.seals != 2 {
		t.Fatalf("%v, %d and %d seals", err, other.seals, c.seals)
	}
	if err := c.take(data[at:]); err != nil {
		t.Fatal(err)
	}
}

func TestSeals(t *testing.T) {
	all, two := journal(4), len(journal(2))
	groups := append([]byte{}, all[two:]...)
	torn := append([]byte{}, groups...)
	torn[0] = bound
	for name, it := range map[string]struct {
		data []byte
		want int
	}{
		"nothing": {nil, 0}, "zeros": {make([]byte, 5000), 0}, "two": {append(groups, bound), 2}, "two, the first torn": {torn, 2},
		"one": {all[len(journal(3)):], 1}, "a group in part": {torn[:len(torn)-20], 1}, "something else": {[]byte("8=x\n"), 0},
	} {
		if got := len(seals(it.data)); got != it.want {
			t.Errorf("%s: %d groups", name, got)
		}
	}
	for entries := int64(0); entries < 5; entries++ {
		if isLater(seals(groups)[0], entries) == (entries == 2) {
			t.Errorf("behind %d entries the seal of the third one is later: %v", entries, entries != 2)
		}
	}
}
