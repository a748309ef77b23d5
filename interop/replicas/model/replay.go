package main

import (
	"fmt"
	"sort"
	"strings"
)

// event is a line of a trace: WHAT RUN FIGURE.., placed where etcd did it.
type event struct {
	what, run string
	figures   []int64
	at        int64
}

// figuresOf are how many figures each kind of line has, and whether the first one is a revision.
var figuresOf = map[string]struct {
	count  int
	placed bool
}{"begins": {2, false}, "took": {3, true}, "put": {3, true}, "told": {2, false}, "refused": {4, false}, "superseded": {0, false}, "hangs": {0, false},
	"marked": {3, true}, "adopted": {3, true}, "restored": {2, false}, "lost": {0, false}}

// replay goes through a trace, and gives how many events it has, or the first that the rules don't allow. Sidecars write their lines after etcd's
// answer, each at its own pace, so lines are ordered by revision first, up to where etcd was put back.
func replay(text string) (int, error) {
	count, part := 0, []event{}
	w := &witness{runs: map[string]*known{}}
	last := map[string]int64{}
	for _, line := range strings.Split(strings.TrimSuffix(text, "\n"), "\n") {
		it, err := eventOf(line)
		if err != nil {
			return count, err
		}
		count++
		if it.what == "restored" {
			if err := w.all(part); err != nil {
				return count, err
			}
			part, last = nil, map[string]int64{}
		}
		if figuresOf[it.what].placed {
			last[it.run] = it.figures[0]
		}
		it.at = last[it.run]
		if it.what == "lost" || it.what == "restored" || it.what == "begins" || it.what == "refused" {
			it.at = highest(last)
		}
		part = append(part, it)
	}
	return count, w.all(part)
}

func highest(of map[string]int64) int64 {
	most := int64(0)
	for _, it := range of {
		if it > most {
			most = it
		}
	}
	return most
}

func eventOf(line string) (event, error) {
	words := strings.Fields(line)
	if len(words) < 2 {
		return event{}, fmt.Errorf("%q is no line of a trace", line)
	}
	it := event{what: words[0], run: words[1]}
	for _, word := range words[2:] {
		var n int64
		if _, err := fmt.Sscan(word, &n); err != nil {
			return event{}, fmt.Errorf("%q is no line of a trace", line)
		}
		it.figures = append(it.figures, n)
	}
	if form, known := figuresOf[it.what]; !known || form.count != len(it.figures) {
		return event{}, fmt.Errorf("%q is no line of a trace", line)
	}
	return it, nil
}

// known is what is known of a run: how far its note was, and how far it had the head put.
type known struct {
	noted, put int64
	unseen     bool // it had one group put of which it got no answer: it was killed before
}

// witness is etcd as the events so far leave it.
type witness struct {
	facts
	entries int64
	runs    map[string]*known
	told    int64
}

func (w *witness) all(events []event) error {
	sort.SliceStable(events, func(i, j int) bool { return events[i].at < events[j].at })
	for _, it := range events {
		if why := w.sees(it); why != "" {
			return fmt.Errorf("%s by %.8s %v: %s", it.what, it.run, it.figures, why)
		}
	}
	return nil
}

// sees takes an event in, and says why it may not be.
func (w *witness) sees(it event) string {
	if w.runs[it.run] == nil {
		w.runs[it.run] = &known{}
	}
	run, f := w.runs[it.run], it.figures
	switch it.what {
	case "begins":
		run.noted = f[1]
	case "restored":
		w.known, w.entries, w.head, w.adopting = true, f[0], f[1], ""
		w.writer = it.run
	case "lost":
		w.facts, w.entries, w.told = facts{}, 0, 0
	case "took":
		return w.tookBy(it, run)
	case "put":
		return w.putBy(it, run)
	case "told":
		return w.toldBy(it, run)
	case "refused":
		if w.known && f[1] == w.head && f[3] == 0 && !w.refuses(f[0], f[2]) {
			return "nothing was there to refuse"
		}
	case "marked":
		w.writer, w.adopting, run.put = it.run, it.run, w.head
		return w.marks(f[2])
	case "adopted":
		why := w.adopts(it.run)
		w.adopting, w.known, w.head, w.entries, run.put = "", true, f[2], f[1], f[2]
		return why
	}
	return ""
}

func (w *witness) tookBy(it event, run *known) string {
	if why := w.takes(); why != "" {
		return why
	}
	if before := w.runs[w.writer]; before != nil && it.figures[2] > w.head && !before.unseen {
		before.unseen, w.known, w.head, w.entries = true, true, it.figures[2], it.figures[1]
	}
	if w.known && it.figures[2] != w.head {
		return fmt.Sprintf("the head is at %d", w.head)
	}
	if w.refuses(run.noted, 0) {
		return fmt.Sprintf("it had noted %d bytes, and takes over %d", run.noted, w.head)
	}
	if w.told > it.figures[2] {
		return fmt.Sprintf("%d bytes were told", w.told)
	}
	w.writer, run.put = it.run, it.figures[2]
	return ""
}

func (w *witness) putBy(it event, run *known) string {
	entries, length := it.figures[1], it.figures[2]
	if w.adopting == it.run { // the end of an adoption: `adopted` says so next
		w.known, w.head, w.entries, run.put = true, length, entries, length
		return ""
	}
	if why := w.puts(it.run, run.put, length); why != "" {
		return why
	}
	if entries < w.entries {
		return fmt.Sprintf("it has %d entries, of %d", entries, w.entries)
	}
	w.known, w.head, w.entries, run.put = true, length, entries, length
	return ""
}

func (w *witness) toldBy(it event, run *known) string {
	length := it.figures[1]
	if why := w.tells(length); why != "" && length > run.put {
		return why
	}
	if length > run.put {
		return fmt.Sprintf("the run has put %d bytes", run.put)
	}
	if length > w.told {
		w.told = length
	}
	return ""
}

// replays tries the replay itself: a trace that is right, and wrong ones.
func replays() {
	right := "begins a -1 0\ntook a 5 -1 0\nput a 6 0 100\ntold a 0 100\nput a 7 1 200\ntold a 1 200\n" +
		"begins b 1 200\ntook b 9 1 200\nput b 10 2 300\nsuperseded a\ntold b 2 300\n"
	count, err := replay(right)
	tried(err == nil && count == 11, "a trace that is right: %d events, %v", count, err)
	for name, it := range map[string][2]string{
		"told before it is put":        {"put a 7 1 200\n", ""},
		"put by one that isn't writer": {"superseded a", "put a 11 3 400"},
		"less than was told":           {"took b 9 1 200", "restored a 0 100\ntook b 9 0 100"},
		"taken over in an adoption":    {"took b 9 1 200", "marked c 8 1 200\ntook b 9 1 200"},
		"a refusal for nothing":        {"superseded a", "refused c 100 300 1 0"},
		"a head that goes back":        {"put b 10 2 300", "put b 10 2 150"},
		"a line of something else":     {"superseded a", "else a"},
	} {
		_, err := replay(strings.Replace(right, it[0], it[1], 1))
		tried(err != nil, "a trace that is wrong, %s: %v", name, err)
	}
}
