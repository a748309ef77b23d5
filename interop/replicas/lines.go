package main

import (
	"context"
	"errors"
	"fmt"
	"time"

	"go.etcd.io/etcd/clientv3"
	"go.etcd.io/etcd/etcdserver/api/v3rpc/rpctypes"
)

const (
	askWait    = time.Second            // for a node to say whether it knows a leader
	leaderWait = 150 * time.Millisecond // for the one that leads, once another one has answered
	newLeader  = time.Second            // for one to lead, before one that follows will do: it may follow one that is gone
	pause      = 50 * time.Millisecond  // before the nodes are asked again
)

// waits are how long one node may take, how long it is tried, and how long where no node answers anything; and, if it isn't 0, how long the first node
// may take: what is gone answers nothing, and only where answers are slow one has to be waited for.
type waits struct{ each, all, silent, first time.Duration }

var (
	putPatience  = waits{each: 2 * time.Second, all: 10 * time.Second, silent: 10 * time.Second} // the server waits 15 s
	pagePatience = waits{each: 30 * time.Second, all: 90 * time.Second, silent: 30 * time.Second, first: 2 * time.Second}
)

// found is what a node answered: a line to it, and whether it leads.
type found struct {
	line  *clientv3.Client
	leads bool
	err   error
}

// dial finds the node that leads, since what is put at another one goes through that anyway; or, if `follower`, one that knows a leader. All are
// asked at once. Once one has answered, the others have little time left.
func (k *keys) dial(follower bool) (*clientv3.Client, error) {
	answers := make(chan found, len(k.nodes))
	for _, node := range k.nodes {
		go func(node string) { answers <- k.asks(node) }(node)
	}
	var follows *clientv3.Client
	last, left := errors.New("no node"), len(k.nodes)
	for over := time.After(askWait + leaderWait); left > 0; {
		select {
		case it := <-answers:
			left--
			switch {
			case it.err != nil:
				last = it.err
			case it.leads:
				go closeAll(left, answers, follows)
				return it.line, nil
			case follows != nil:
				it.line.Close()
			default:
				follows, over = it.line, time.After(leaderWait)
			}
		case <-over:
			go closeAll(left, answers, nil)
			left = 0
		}
	}
	if follows != nil && follower {
		return follows, nil
	}
	if follows != nil {
		follows.Close()
		last = errors.New("the node that leads doesn't answer")
	}
	return nil, last
}

// closeAll closes what isn't used: a line, and those that come too late.
func closeAll(left int, answers chan found, other *clientv3.Client) {
	if other != nil {
		other.Close()
	}
	for ; left > 0; left-- {
		if it := <-answers; it.line != nil {
			it.line.Close()
		}
	}
}

func (k *keys) asks(node string) found {
	line, err := clientv3.New(k.config(node))
	if err != nil {
		return found{err: err}
	}
	within, end := context.WithTimeout(context.Background(), askWait)
	defer end()
	status, err := line.Status(within, node)
	if err == nil && status.Leader == 0 {
		err = errors.New("no node leads")
	}
	if err != nil {
		line.Close()
		return found{err: fmt.Errorf("%s: %w", node, err)}
	}
	return found{line: line, leads: status.Leader == status.Header.MemberId}
}

// final are the answers that no other node would give otherwise.
func final(err error) bool {
	for _, it := range []error{rpctypes.ErrNoSpace, rpctypes.ErrPermissionDenied, rpctypes.ErrRequestTooLarge, rpctypes.ErrDuplicateKey, rpctypes.ErrTooManyOps,
		rpctypes.ErrCompacted, rpctypes.ErrLeaseNotFound, rpctypes.ErrUserEmpty} {
		if rpctypes.Error(err) == it {
			return true
		}
	}
	return false
}

// try asks until a node answers, and no longer than it may: so what is asked may be done twice.
func (k *keys) try(p waits, ask func(context.Context, *clientv3.Client) error) error {
	k.lock.Lock()
	defer k.lock.Unlock()
	began := time.Now()
	each := p.each
	if p.first > 0 && !k.slow {
		each = p.first
	}
	for heard := began; ; time.Sleep(pause) {
		var err error
		if k.line == nil {
			k.line, err = k.dial(time.Since(began) > newLeader)
		}
		if k.line != nil {
			asked := time.Now()
			within, end := context.WithTimeout(context.Background(), each)
			err = ask(within, k.line)
			end()
			if err == nil || final(err) {
				k.slow = p.first > 0 && time.Since(asked) > p.first
				return err
			}
			k.line.Close()
			k.line, heard, each = nil, time.Now(), p.each
		}
		if time.Since(began) > p.all || time.Since(heard) > p.silent {
			return fmt.Errorf("no node of etcd takes it: %v%s", err, k.trouble(k.nodes...))
		}
	}
}

// wakes sends a word whenever one of the keys is put or deleted, and each second: a node that is gone tells nothing.
func (k *keys) wakes(names ...string) <-chan struct{} {
	woken := make(chan struct{}, 1)
	wake := func() {
		select {
		case woken <- struct{}{}:
		default:
		}
	}
	go func() {
		for ; ; time.Sleep(time.Second) {
			wake()
		}
	}()
	for _, name := range names {
		go func(name string) {
			for ; ; time.Sleep(pause) {
				k.heed(name, wake)
			}
		}(name)
	}
	return woken
}

// heed calls `wake` for each event, until the watch ends.
func (k *keys) heed(name string, wake func()) {
	line, err := clientv3.New(k.config(k.nodes...))
	if err != nil {
		return
	}
	defer line.Close()
	within, end := context.WithCancel(context.Background())
	defer end()
	for it := range line.Watch(clientv3.WithRequireLeader(within), k.root+name) {
		if it.Err() != nil {
			return
		}
		wake()
	}
}
