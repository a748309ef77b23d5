package main

import (
	"context"
	"fmt"
	"io"
	"net"
	"net/http"
	"strconv"
	"strings"
	"time"
)

const (
	healthEach = time.Second
	saysLate   = 5 // seconds after which the server itself says that a part of it stands still
)

// pulse is how a server was seen to move: when it last said that it is well, and since when it says that it isn't.
type pulse struct {
	well, late time.Time
	says       string
}

// saw takes in an answer of /health, or that there was none.
func (p *pulse) saw(now time.Time, status int, text string) {
	switch {
	case status == http.StatusOK:
		p.well, p.late, p.says = now, time.Time{}, ""
	case status == 0:
		p.says = text
	default:
		if p.late.IsZero() {
			p.late = now
		}
		p.says = text
	}
}

// stands tells whether nothing has moved for so long. What the server calls late has stood still before that.
func (p *pulse) stands(now time.Time, hang time.Duration) bool {
	late := !p.late.IsZero() && now.Sub(p.late) >= hang-saysLate*time.Second
	return late || now.Sub(p.well) >= hang
}

// watchHealth asks for the server's health each second. Where it stands still this program ends: first the line to the server, then the lock, so
// that another machine serves, and last the server, which may be one that can't be killed.
func (s *server) watchHealth(hang int64) {
	client := pages(s.status)
	p := pulse{well: time.Now()}
	for last := time.Now(); ; time.Sleep(healthEach) {
		now := time.Now()
		if now.Sub(last) > 3*healthEach { // it was this program that stood still
			p.well, p.late = now, time.Time{}
		}
		last = now
		status, text := health(client)
		now = time.Now()
		p.saw(now, status, text)
		if p.stands(now, time.Duration(hang)*time.Second) {
			traced("hangs", "server")
			lost("the server stands still: %s; %s; the lock is given up", p.says, shown.answers())
		}
	}
}

// pages asks a port of 127.0.0.1, or a socket.
func pages(at string) *http.Client {
	kind := "unix"
	if _, err := strconv.Atoi(at); err == nil {
		kind, at = "tcp", "127.0.0.1:"+at
	}
	dial := func(within context.Context, _, _ string) (net.Conn, error) {
		return (&net.Dialer{}).DialContext(within, kind, at)
	}
	return &http.Client{Timeout: healthEach, Transport: &http.Transport{DialContext: dial, DisableKeepAlives: true}}
}

// health is the status of /health, and its text; 0 where there is no answer.
func health(client *http.Client) (int, string) {
	answer, err := client.Get("http://allocd/health")
	if err != nil {
		return 0, fmt.Sprintf("its status doesn't answer: %v", err)
	}
	defer answer.Body.Close()
	text, err := io.ReadAll(io.LimitReader(answer.Body, 200))
	if err != nil {
		return 0, fmt.Sprintf("its status doesn't answer: %v", err)
	}
	return answer.StatusCode, strings.TrimSpace(string(text))
}
