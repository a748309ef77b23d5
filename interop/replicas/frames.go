package main

import (
	"bytes"
	"fmt"
	"strconv"
)

var opening = []byte("8=FIXT.1.1\x019=")

// cut gives the frame with which the bytes begin; nothing where it isn't whole.
func cut(data []byte) ([]byte, error) {
	if len(data) < len(opening)+8 {
		if !bytes.HasPrefix(opening, data[:min(len(data), len(opening))]) {
			return nil, fmt.Errorf("%q is no frame", data)
		}
		return nil, nil
	}
	if !bytes.HasPrefix(data, opening) {
		return nil, fmt.Errorf("%q is no frame", data[:min(len(data), 40)])
	}
	digits := bytes.IndexByte(data[len(opening):], 1)
	if digits < 0 {
		return nil, fmt.Errorf("%q is no frame", data[:min(len(data), 40)])
	}
	length, err := strconv.Atoi(string(data[len(opening) : len(opening)+digits]))
	end := len(opening) + digits + 1 + length + 7
	if err != nil || length < 5 || length > 1_000_000 {
		return nil, fmt.Errorf("%q is no frame", data[:min(len(data), 40)])
	}
	if len(data) < end {
		return nil, nil
	}
	sum := 0
	for _, it := range data[:end-7] {
		sum += int(it)
	}
	if string(data[end-7:end]) != fmt.Sprintf("10=%03d\x01", sum%256) {
		return nil, fmt.Errorf("%q has a wrong checksum", data[:end])
	}
	return data[:end], nil
}

// field is the first value of a tag in a frame; empty where it isn't there.
func field(one []byte, tag string) string {
	from := bytes.Index(one, []byte("\x01"+tag+"="))
	if from < 0 {
		return ""
	}
	value := one[from+len(tag)+2:]
	return string(value[:bytes.IndexByte(value, 1)])
}

func min(a, b int) int {
	if a < b {
		return a
	}
	return b
}

func clamp(n, least, most int64) int64 {
	if n < least {
		return least
	}
	if n > most {
		return most
	}
	return n
}
