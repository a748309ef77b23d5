package main

import (
	"fmt"
	"strings"
)

// scenario is what may happen, and the old rule that has its fault there.
type scenario struct {
	name   string
	bounds bounds
	old    rules
	was    string
}

var scenarios = []scenario{
	{name: "crashes, pauses, lost and late puts", bounds: bounds{crash: 2, freeze: 1, depth: 18}},
	{"an etcd that is put back to a snapshot", bounds{snapshot: 1, crash: 1, adopt: 1, depth: 20}, rules{believes: true}, "and believed"},
	{"an etcd that is lost, and an adoption that is broken off", bounds{lose: 1, crash: 1, adopt: 2, depth: 19}, rules{inPlace: true}, "in place and without a marker"},
	{"a byte that changes on a disk", bounds{flip: 1, crash: 1, depth: 17}, rules{joinsOwn: true}, "and what is joined is the file's"},
	{"a server that stands still, a sidecar that is frozen", bounds{hang: 1, freeze: 1, depth: 17}, rules{waits: true}, "and is waited for"},
	{"a person's word to take over", bounds{word: 2, crash: 1, depth: 17}, rules{takesFree: true}, "at each start of a unit, without the lock"},
}

// result is what a search found: the steps to a fault, or how many states there are without one.
type result struct {
	fault  string
	way    []string
	states int
	depth  int8
}

func (r result) String() string {
	if r.fault == "" {
		return fmt.Sprintf("no fault in %d states, %d steps deep", r.states, r.depth)
	}
	return fmt.Sprintf("%s: %s", r.fault, strings.Join(r.way, "; "))
}

// came is how a state was come to.
type came struct {
	from state
	done string
}

// search goes through all states up to a depth, the nearest first.
func search(b bounds, r rules) result {
	start := state{left: b}
	depth := b.depth
	start.left.depth = 0
	seen := map[state]came{start: {}}
	level := []state{start}
	for at := int8(0); at < depth && len(level) > 0; at++ {
		var further []state
		for _, s := range level {
			steps := next(s, r)
			if fault := stands(s, steps); fault != "" {
				return result{fault: fault, way: way(seen, s, start, "")}
			}
			for _, it := range steps {
				if it.fault != "" {
					return result{fault: it.fault, way: way(seen, s, start, it.done)}
				}
				if _, known := seen[it.to]; !known {
					seen[it.to] = came{s, it.done}
					further = append(further, it.to)
				}
			}
		}
		level = further
	}
	return result{states: len(seen), depth: depth}
}

// way is what was done up to a state, and then.
func way(seen map[state]came, s, start state, last string) []string {
	var done []string
	if last != "" {
		done = []string{last}
	}
	for s != start {
		it := seen[s]
		done = append([]string{it.done}, done...)
		s = it.from
	}
	return done
}
