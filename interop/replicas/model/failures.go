package main

// fails has a machine crash, its server or its sidecar stand still, or its disk change a byte.
func (w *walk) fails(i int) {
	s := w.from
	m := &s.machines[i]
	runs := m.role != down
	if runs && s.left.crash > 0 {
		s.left.crash--
		m.role, m.asked = down, 0
		w.add(s, "", "%c crashes", 'A'+i)
	}
	if s = w.from; m.role == serves && s.left.hang > 0 {
		s.left.hang--
		s.machines[i].role = hung
		w.add(s, "", "the server of %c stands still", 'A'+i)
	}
	if s = w.from; w.from.machines[i].role == serves && s.left.freeze > 0 {
		s.left.freeze--
		s.machines[i].role = frozen
		w.add(s, "", "the sidecar of %c is frozen", 'A'+i)
	}
	if s = w.from; s.machines[i].file.n > 0 && s.machines[i].file.ids[0] > 0 && s.left.flip > 0 {
		s.left.flip--
		s.machines[i].file.ids[0] *= -1
		w.add(s, "", "a byte changes on the disk of %c", 'A'+i)
	}
}

// moves is what comes of a part that stands still: it moves again, or others don't wait for it.
func (w *walk) moves(i int) {
	s := w.from
	m := &s.machines[i]
	if m.role != hung && m.role != frozen {
		return
	}
	was := m.role
	m.role = serves
	w.byPerson(s, "%c moves again", 'A'+i)
	if w.waits {
		return
	}
	s = w.from
	m = &s.machines[i]
	m.role, m.asked = down, 0
	if was == hung && s.etcd.lock == int8(i+1) {
		s.etcd.lock = 0
	}
	w.add(s, "", "%c ends for want of an answer", 'A'+i)
}

// stands is a fault that no step is: a part stands still, and without a person nothing comes of it.
func stands(s state, steps []step) string {
	for i, m := range s.machines {
		if m.role != hung && m.role != frozen {
			continue
		}
		ends := false
		for _, it := range steps {
			ends = ends || !it.person && it.to.machines[i].role == down && it.to.left == s.left
		}
		if !ends {
			return "a server stands still, or has no sidecar, until somebody comes"
		}
	}
	return ""
}

// etcdFails has etcd lost, or put back to a snapshot: once all notes are as far as the head, which takes a second.
func (w *walk) etcdFails() {
	s := w.from
	if s.left.snapshot > 0 && !s.has {
		s.kept, s.has = s.etcd, true
		w.add(s, "", "a snapshot is made")
	}
	for _, m := range w.from.machines {
		if m.seen < w.from.etcd.book.n && !w.believes {
			return
		}
	}
	if s = w.from; s.has && s.left.snapshot > 0 {
		s.etcd, s.puts = s.kept, [2]put{}
		s.left.snapshot--
		w.byPerson(s, "etcd is put back to the snapshot")
	}
	if s = w.from; s.left.lose > 0 && s.etcd.known {
		s.etcd, s.puts = node{version: s.etcd.version + 1}, [2]put{}
		s.left.lose--
		w.byPerson(s, "etcd is lost")
	}
}

// adopts is a person's word, on a machine that has all that was told; it ends, or is broken off.
func (w *walk) adopts(i int) {
	s := w.from
	m := &s.machines[i]
	if m.role == adopts {
		w.adopted(s, i)
		return
	}
	all := m.role == down && m.file.n > 0 && !s.lost(m.file) && m.file.begins(s.etcd.book) && m.file.n > s.etcd.book.n
	if !all || s.left.adopt == 0 || s.etcd.lock != 0 || s.facts(i).marks(int64(m.file.n)) != "" {
		return
	}
	s.left.adopt--
	s.runs++
	s.etcd.version++
	s.etcd.writer, s.etcd.lock = s.runs, int8(i+1)
	m.role, m.run = adopts, s.runs
	if w.inPlace {
		s.etcd.known, s.etcd.book = true, book{} // an empty head
	} else {
		s.etcd.adopting = s.runs
	}
	w.byPerson(s, "%c begins an adoption", 'A'+i)
}

func (w *walk) adopted(s state, i int) {
	m := &s.machines[i]
	if w.inPlace && s.etcd.writer == m.run || !w.inPlace && s.facts(i).adopts(named(m.run)) == "" {
		s.etcd.known, s.etcd.book, s.etcd.adopting, s.etcd.lock = true, m.file, 0, 0
		s.etcd.version++
		m.role, m.seen = down, m.file.n
		w.add(s, "", "%c has adopted", 'A'+i)
		return
	}
	m.role = down
	w.add(s, "", "%c gives its adoption up", 'A'+i)
}

// words is a person's word that a machine shall take over: once, by the lock; or, before, by its unit, at each start.
func (w *walk) words(i int) {
	s := w.from
	m := &s.machines[i]
	if s.left.word == 0 {
		return
	}
	s.left.word--
	if w.takesFree {
		m.word = true
		w.byPerson(s, "the unit of %c has the word to take over", 'A'+i)
	} else if m.role == follows && s.etcd.lock != 0 && s.etcd.lock != int8(i+1) {
		s.etcd.lock = int8(i + 1)
		w.byPerson(s, "the lock is given to %c", 'A'+i)
	}
}
