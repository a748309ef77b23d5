// model searches all interleavings of two machines, each a sidecar and a server, over one etcd, up to bounds, for what must never be (interop/replicas/README.md).
//
//	model                 the searches: each protocol of today without a fault, each old rule with the fault that it has
//	model --replay FILE   goes through what sidecars put and answered (TRACE), and says where the rules don't allow it
package main

import (
	"fmt"
	"os"
)

var passed, failed int

// tried counts a case.
func tried(well bool, words string, more ...interface{}) {
	word := "well"
	if well {
		passed++
	} else {
		failed++
		word = "FAILED"
	}
	fmt.Printf("%s: %s\n", word, fmt.Sprintf(words, more...))
}

func main() {
	switch {
	case len(os.Args) == 1:
		searches()
		replays()
		fmt.Printf("%d passed, %d failed\n", passed, failed)
		if failed > 0 {
			os.Exit(1)
		}
	case len(os.Args) == 3 && os.Args[1] == "--replay":
		text, err := os.ReadFile(os.Args[2])
		if err == nil {
			var events int
			if events, err = replay(string(text)); err == nil {
				fmt.Printf("%d events of a trace\n", events)
				return
			}
		}
		fmt.Println(err)
		os.Exit(1)
	default:
		fmt.Fprintln(os.Stderr, "model [--replay FILE]")
		os.Exit(2)
	}
}

// searches looks through each scenario by the rules of today, and by the old rule that it is about.
func searches() {
	for _, it := range scenarios {
		found := search(it.bounds, rules{})
		tried(found.fault == "", "%s: %s", it.name, found)
		if it.old != (rules{}) {
			found := search(it.bounds, it.old)
			tried(found.fault != "", "%s, %s: %s", it.name, it.was, found)
		}
	}
}
