package main

import "fmt"

// step is a state that may come next, what was done, and the fault that this is; empty where it is none.
type step struct {
	to          state
	done, fault string
	person      bool // somebody had to come
}

// walk gathers the steps of a state.
type walk struct {
	rules
	from  state
	steps []step
}

func (w *walk) add(to state, fault, words string, more ...interface{}) {
	w.steps = append(w.steps, step{to: to, fault: fault, done: fmt.Sprintf(words, more...)})
}

func (w *walk) byPerson(to state, words string, more ...interface{}) {
	w.steps = append(w.steps, step{to: to, done: fmt.Sprintf(words, more...), person: true})
}

// next gives all steps of a state.
func next(from state, r rules) []step {
	w := &walk{rules: r, from: from}
	for i := range from.machines {
		w.begins(i)
		w.follows(i)
		w.locks(i)
		w.accepts(i)
		w.joins(i)
		w.fails(i)
		w.moves(i)
		w.adopts(i)
		w.words(i)
	}
	for i := range from.puts {
		w.arrives(i)
	}
	w.etcdFails()
	return w.steps
}

// settled has a machine's file be what etcd has, if it may be so; the fault is what was cut then.
func (w *walk) settled(s *state, i int) (bool, string) {
	m := &s.machines[i]
	behind := m.file.n - s.etcd.book.n
	if !s.etcd.known && m.file.n > 0 && (w.believes || m.seen > 0 || m.file.n > 1) {
		return false, ""
	}
	if !w.believes && s.facts(i).refuses(int64(m.seen), int64(behind)) {
		return false, ""
	}
	fault := ""
	for at := s.etcd.book.n; at < m.file.n && at < s.told.n; at++ {
		if m.file.ids[at] == s.told.ids[at] {
			fault = "what was told is cut off"
		}
	}
	m.file, m.seen = s.etcd.book, s.etcd.book.n
	return true, fault
}

// begins starts a sidecar, which follows.
func (w *walk) begins(i int) {
	s := w.from
	if s.machines[i].role != down {
		return
	}
	if well, fault := w.settled(&s, i); well {
		s.machines[i].role = follows
		w.add(s, fault, "%c starts, and follows", 'A'+i)
		if s.machines[i].word && w.takesFree {
			w.takes(s, i, "by the unit's word")
		}
	}
}

func (w *walk) follows(i int) {
	s := w.from
	m := &s.machines[i]
	if m.role != follows {
		return
	}
	if !s.etcd.book.begins(m.file) {
		m.role = down
		w.add(s, "", "%c finds less than it followed, and ends", 'A'+i)
	} else if s.etcd.book.n > m.file.n {
		m.file, m.seen = s.etcd.book, s.etcd.book.n
		w.add(s, "", "%c follows", 'A'+i)
	}
}

// locks takes the lock, and with it the book; a lock whose machine doesn't move is over at some time.
func (w *walk) locks(i int) {
	s := w.from
	m := s.machines[i]
	if s.etcd.lock == 0 && (m.role == follows) {
		s.etcd.lock = int8(i + 1)
		w.add(s, "", "%c has the lock", 'A'+i)
	}
	if m.role == follows && s.etcd.lock == int8(i+1) {
		w.takes(s, i, "")
	}
	if s = w.from; s.etcd.lock == int8(i+1) && (m.role == down || m.role == frozen || m.role == adopts) {
		s.etcd.lock = 0
		w.add(s, "", "the lock of %c is over", 'A'+i)
	}
}

func (w *walk) takes(s state, i int, how string) {
	why := s.facts(i).takes()
	if w.takesFree && why == "the lock is another's" {
		why = ""
	}
	if why != "" {
		return
	}
	fault := ""
	if s.facts(i).noLock {
		fault = "a machine takes the book over that hasn't the lock"
	}
	well, cut := w.settled(&s, i)
	if !well {
		s.machines[i].role = down
		w.add(s, "", "%c refuses to take over", 'A'+i)
		return
	}
	if s.lost(s.etcd.book) {
		fault = "a machine serves a book that lacks what was told"
	}
	if cut != "" {
		fault = cut
	}
	if s.etcd.book.n > s.told.n {
		s.told = s.etcd.book // whoever asks again is told
	}
	s.runs++
	s.etcd.version++
	s.etcd.writer = s.runs
	m := &s.machines[i]
	m.role, m.run, m.placed, m.asked = serves, s.runs, s.etcd.version, 0
	w.add(s, fault, "%c takes over %s", 'A'+i, how)
}

// accepts stages a group and asks for it, also again where no answer came.
func (w *walk) accepts(i int) {
	s := w.from
	m := &s.machines[i]
	if m.role != serves {
		return
	}
	if s.etcd.writer != m.run {
		m.role, m.asked = down, 0
		w.add(s, "", "%c finds that it isn't the writer, and ends", 'A'+i)
		s, m = w.from, &s.machines[i]
	}
	s = w.from
	m = &s.machines[i]
	if m.asked == 0 && m.file.n < most {
		s.ids++
		m.file, m.asked = m.file.with(s.ids), s.ids
		w.sends(s, i)
	} else if m.asked != 0 {
		w.sends(s, i)
	}
}

func (w *walk) sends(s state, i int) {
	m := s.machines[i]
	it := put{m.run, m.placed, m.asked}
	for at := range s.puts {
		if s.puts[at] == it {
			return
		}
	}
	for at := range s.puts {
		if s.puts[at] == (put{}) {
			s.puts[at] = it
			w.add(s, "", "%c puts group %d", 'A'+i, m.asked)
			return
		}
	}
}

// arrives has a put come to etcd, if late; or never. Its answer comes, or doesn't.
func (w *walk) arrives(at int) {
	it, s := w.from.puts[at], w.from
	if it == (put{}) {
		return
	}
	s.puts[at] = put{}
	w.add(s, "", "the put of group %d is lost", it.id)
	why := s.facts(0).puts(named(it.run), int64(s.etcd.book.n), int64(s.etcd.book.n)+1)
	done := why == "" && s.etcd.version == it.placed
	if done {
		s.etcd.known, s.etcd.book, s.etcd.version = true, s.etcd.book.with(it.id), s.etcd.version+1
		w.add(s, "", "group %d is put, and the answer gets lost", it.id)
	}
	for i := range s.machines {
		w.answered(s, i, it, done)
	}
}

// answered gives the answer of a put to the run that asked: the group is told, or another run is the writer.
func (w *walk) answered(s state, i int, it put, done bool) {
	m := &s.machines[i]
	if m.role != serves || m.run != it.run || m.asked != it.id {
		return
	}
	has := s.etcd.book.n > 0 && s.etcd.book.ids[s.etcd.book.n-1] == it.id
	if !done && !has {
		m.role, m.asked = down, 0
		w.add(s, "", "%c is refused, and ends", 'A'+i)
		return
	}
	m.asked, m.placed, m.seen = 0, s.etcd.version, s.etcd.book.n
	place, fault := s.etcd.book.n-1, ""
	if why := s.facts(i).tells(int64(s.etcd.book.n)); why != "" {
		fault = why
	}
	if place < s.told.n && s.told.ids[place] != it.id {
		fault = "a number was told for two groups"
	} else if place == s.told.n {
		s.told = s.told.with(it.id)
	}
	w.add(s, fault, "%c tells group %d", 'A'+i, it.id)
}

// joins makes one piece of those that are there.
func (w *walk) joins(i int) {
	s := w.from
	m := &s.machines[i]
	if m.role != serves || s.etcd.writer != m.run || m.file.begins(s.etcd.book) {
		return
	}
	if !w.joinsOwn {
		m.role, m.asked = down, 0
		w.add(s, "", "%c finds that its file isn't what etcd has, and ends", 'A'+i)
		return
	}
	for at := int8(0); at < s.etcd.book.n; at++ {
		s.etcd.book.ids[at] = m.file.ids[at]
	}
	fault := ""
	if s.lost(s.etcd.book) {
		fault = "a good piece of etcd is written over"
	}
	w.add(s, fault, "%c joins the pieces", 'A'+i)
}
