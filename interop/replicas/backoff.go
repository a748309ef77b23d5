package main

import (
	"os"
	"strconv"
	"strings"
	"time"
)

const (
	firstWait = 100 * time.Millisecond // with what the unit waits
	mostWait  = 5 * time.Second
)

// starts counts the starts in a row that came to nothing, in a file.
type starts struct{ path string }

// waitAfter is how long the next start waits after so many.
func waitAfter(count int) time.Duration {
	if count == 0 {
		return 0
	}
	wait := firstWait
	for ; count > 1 && wait < mostWait; count-- {
		wait *= 2
	}
	if wait > mostWait {
		wait = mostWait
	}
	return wait
}

// backoff waits, the longer the more starts have come to nothing.
func backoff(path string) *starts {
	text, _ := os.ReadFile(path)
	count, _ := strconv.Atoi(strings.TrimSpace(string(text)))
	os.WriteFile(path, []byte(strconv.Itoa(count+1)+"\n"), 0o600) // where this can't be written there is no wait
	time.Sleep(waitAfter(count))
	return &starts{path}
}

// served says that this start came to something.
func (s *starts) served() { os.Remove(s.path) }
