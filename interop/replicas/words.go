package main

import "strconv"

// wishes are what `run`, `adopt` and `takeover` are asked for.
type wishes struct {
	house, file, book, port string
	ttl, hang               int64
	metrics                 string
	keep                    []string // the further words of `allocd keep`
}

// order is a command line that is one of the program's.
type order struct {
	word string
	wishes
	name, memory string
}

// asked reads the command line; false where it isn't one.
func asked(words []string) (order, bool) {
	if len(words) == 0 {
		return order{}, false
	}
	a := order{word: words[0], wishes: wishes{ttl: 5, hang: 10}}
	switch a.word {
	case "run":
		return a, a.takes(words[1:], &a.house, &a.file, &a.book) && a.port != ""
	case "adopt":
		if len(words) == 2 {
			a.usual(words[1])
			return a, true
		}
		return a, len(words) == 4 && a.takes(words[1:], &a.house, &a.file, &a.book)
	case "takeover":
		if len(words) == 2 {
			a.usual(words[1])
			return a, true
		}
		return a, len(words) == 3 && a.takes(words[1:], &a.file, &a.book)
	case "watch":
		return a, a.takes(words[1:], &a.book, &a.name)
	case "show", "state":
		return a, len(words) == 2 && a.takes(words[1:], &a.book)
	case "version":
		return a, len(words) == 1
	}
	return a, false
}

// usual has the files be those of the units.
func (a *order) usual(book string) {
	a.book, a.house, a.file = book, "/etc/allocd/"+book+".house", "/var/lib/allocd/"+book
}

// takes reads the words that have to be there, and then options.
func (a *order) takes(words []string, places ...*string) bool {
	if len(words) < len(places) {
		return false
	}
	for i, place := range places {
		*place = words[i]
	}
	for words = words[len(places):]; len(words) > 0; words = words[2:] {
		if words[0] == "--" && a.word == "run" {
			a.keep = append(a.keep, words[1:]...)
			return true
		}
		if len(words) == 1 || !a.option(words[0], words[1]) {
			return false
		}
	}
	return true
}

func (a *order) option(name, value string) bool {
	switch {
	case name == "--metrics" && (a.word == "run" || a.word == "watch"):
		a.metrics = value
	case name == "--memory" && a.word == "watch":
		a.memory = value
	case a.word != "run":
		return false
	case name == "--port":
		a.port = value
	case name == "--workers":
		a.keep = append(a.keep, name, value)
	case name == "--ttl":
		return number(value, 2, &a.ttl)
	case name == "--hang":
		return number(value, 6, &a.hang)
	default:
		return false
	}
	return true
}

// number reads a count of seconds, up to a minute.
func number(text string, least int64, place *int64) bool {
	n, err := strconv.ParseInt(text, 10, 64)
	*place = n
	return err == nil && n >= least && n <= 60
}

// statusOf is where the server shall answer for its status: as its words say, else at a socket beside the file.
func (w wishes) statusOf() (string, []string) {
	for i, it := range w.keep {
		if it == "--status" && i+1 < len(w.keep) {
			return w.keep[i+1], w.keep
		}
	}
	at := short(w.file + ".status")
	return at, append(append([]string{}, w.keep...), "--status", at)
}
