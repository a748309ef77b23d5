package main

import (
	"fmt"
	"os"
	"sync"
)

var tracing struct {
	once sync.Once
	file *os.File
}

// traced adds a line to the file that TRACE names, if it does: what was done, by which run, and figures. `model --replay` reads them.
func traced(what, run string, figures ...int64) {
	tracing.once.Do(func() {
		if path := os.Getenv("TRACE"); path != "" {
			file, err := os.OpenFile(path, os.O_WRONLY|os.O_APPEND|os.O_CREATE, 0o644)
			check(err)
			tracing.file = file
		}
	})
	if tracing.file == nil {
		return
	}
	text := what + " " + run
	for _, it := range figures {
		text += fmt.Sprintf(" %d", it)
	}
	_, err := tracing.file.WriteString(text + "\n")
	check(err)
}
