package main

// rules are those that were before, each of which has a fault.
type rules struct {
	believes  bool // 1: what stands behind the head is cut, however much it is, and nothing is noted
	inPlace   bool // 2: an adoption puts an empty head first, and no marker
	joinsOwn  bool // 3: what is joined is what the file has
	waits     bool // 4: a server that stands still is waited for, and asks its sidecar nothing
	takesFree bool // 5: a word of the unit takes the book over at each start, without the lock
}

// facts are what a transaction asks: who may put, whether somebody adopts, and how far the head is. The search counts a book by its groups, and
// a replay by its bytes.
type facts struct {
	known            bool
	head             int64
	writer, adopting string
	noLock           bool // of a search: who asks hasn't the lock
}

// takes is whether a run may become the writer, and why not.
func (f facts) takes() string {
	switch {
	case f.adopting != "":
		return "an adoption isn't over"
	case f.noLock:
		return "the lock is another's"
	}
	return ""
}

// puts is whether a run may put the head so far.
func (f facts) puts(run string, from, to int64) string {
	switch {
	case f.writer != run:
		return "another run is the writer"
	case f.head != from:
		return "the head isn't where the run left it"
	case to < from:
		return "the head would go back"
	}
	return ""
}

// marks is whether a run may begin an adoption of a journal that is so long.
func (f facts) marks(length int64) string {
	if f.known && length < f.head {
		return "etcd has more than the journal"
	}
	return ""
}

// adopts is whether a run may end its adoption.
func (f facts) adopts(run string) string {
	if f.adopting != run || f.writer != run {
		return "the marker isn't this run's"
	}
	return ""
}

// tells is whether a server may be answered that its book is so long.
func (f facts) tells(length int64) string {
	if !f.known || length > f.head {
		return "the head hasn't that yet"
	}
	return ""
}

// refuses is whether a machine may not go on, whose note has so much and whose file so many groups behind the head.
func (f facts) refuses(seen, behind int64) bool { return seen > f.head || behind > 1 }
