package main

import (
	"context"
	"os"
	"sync"
	"sync/atomic"
	"syscall"
	"time"

	"go.etcd.io/etcd/clientv3"
	"go.etcd.io/etcd/etcdserver/api/v3rpc/rpctypes"
)

// hold is the key `lock`, which goes with its lease: who has it should write the book. Only `writer` says who may. Its value is a machine and a
// file: whoever has the lock beside that file was preceded there by nobody who still runs, so it takes over from itself without waiting.
type hold struct {
	k     *keys // a line of its own, so that no put is waited for
	name  string
	ttl   int64
	guard sync.Mutex
	lease int64 // of one at a time, which has `guard`
}

func newHold(book, name string, ttl int64) *hold {
	l := &hold{k: newKeys(book), name: name, ttl: ttl}
	go l.keep()
	return l
}

// leased makes a lease, where there is none.
func (l *hold) leased() {
	if atomic.LoadInt64(&l.lease) != 0 {
		return
	}
	check(l.k.try(putPatience, func(within context.Context, line *clientv3.Client) error {
		said, err := line.Grant(within, l.ttl)
		if err == nil {
			atomic.StoreInt64(&l.lease, int64(said.ID))
		}
		return err
	}))
}

// opPut puts the lock by its lease.
func (l *hold) opPut() clientv3.Op {
	return clientv3.OpPut(l.k.root+"lock", l.name, clientv3.WithLease(clientv3.LeaseID(atomic.LoadInt64(&l.lease))))
}

// take tries to have the lock; else it says who has it.
func (l *hold) take() (bool, string) {
	l.guard.Lock()
	defer l.guard.Unlock()
	l.leased()
	said, err := l.k.swap([]clientv3.Cmp{l.k.is("lock", l.name)}, []clientv3.Op{l.opPut()}, clientv3.OpGet(l.k.root+"lock"))
	if err == nil && !said.Succeeded && said.Responses[0].GetResponseRange().Count == 0 {
		said, err = l.k.swap([]clientv3.Cmp{l.k.since("lock", 0)}, []clientv3.Op{l.opPut()}, clientv3.OpGet(l.k.root+"lock"))
	}
	if rpctypes.Error(err) == rpctypes.ErrLeaseNotFound {
		atomic.StoreInt64(&l.lease, 0)
		return false, "nobody yet"
	}
	check(err)
	had := said.Succeeded
	shown.setLock(had)
	if had {
		return true, l.name
	}
	for _, kv := range said.Responses[0].GetResponseRange().Kvs {
		return false, string(kv.Value)
	}
	return false, "nobody yet"
}

// keep has the lease live on, also that of one who waits. A lease that is over is made anew: until somebody else has put `writer` nothing is lost.
func (l *hold) keep() {
	ttl := time.Duration(l.ttl) * time.Second
	wait := waits{each: time.Second, all: ttl, silent: ttl}
	for range time.Tick(ttl / 4) {
		l.guard.Lock()
		over := false
		if lease := atomic.LoadInt64(&l.lease); lease != 0 {
			err := l.k.try(wait, func(within context.Context, line *clientv3.Client) error {
				_, err := line.KeepAliveOnce(within, clientv3.LeaseID(lease))
				return err
			})
			if over = rpctypes.Error(err) == rpctypes.ErrLeaseNotFound; over {
				atomic.StoreInt64(&l.lease, 0)
			} else if err == nil {
				l.own(wait, lease)
			}
		}
		l.guard.Unlock()
		if over {
			had, who := l.take()
			say("the lock's lease was over; now %s has it (%v)", who, had)
		}
	}
}

// own has the lock be there by this machine's lease, where a person's word for this machine has put it by one that nobody keeps.
func (l *hold) own(wait waits, lease int64) {
	mine := []clientv3.Cmp{l.k.is("lock", l.name)}
	said, err := l.k.swapWithin(wait, mine, []clientv3.Op{clientv3.OpGet(l.k.root + "lock")})
	if err != nil || !said.Succeeded {
		return
	}
	for _, kv := range said.Responses[0].GetResponseRange().Kvs {
		if kv.Lease != lease {
			l.k.swapWithin(wait, mine, []clientv3.Op{l.opPut()}) // where it can't be put it is tried again
		}
	}
}

// leave gives the lock up, where etcd answers at once.
func (l *hold) leave() {
	lease := atomic.LoadInt64(&l.lease)
	line, err := l.k.dial(true)
	if err != nil || lease == 0 {
		return
	}
	within, end := context.WithTimeout(context.Background(), askWait)
	defer end()
	line.Revoke(within, clientv3.LeaseID(lease))
}

// takeover has the machine's own `run` on a file have the lock, whoever has it: it puts the book's `writer` next. Nobody else's word does that
// again, so two machines that are told this serve once each, one after the other.
func takeover(w wishes) {
	lock, err := os.Open(w.file + ".lock")
	if err != nil || syscall.Flock(int(lock.Fd()), syscall.LOCK_EX|syscall.LOCK_NB) == nil {
		lost("no sidecar runs on %s here, which could take the book over: start it", w.file)
	}
	k, name := newKeys(w.book), place(w.file)
	if h, _ := k.head(); !h.known {
		lost("etcd has no book %s", w.book)
	}
	l := &hold{k: k, name: name, ttl: 15}
	l.leased()
	had, _ := k.get("lock")
	_, err = k.swap(nil, []clientv3.Op{l.opPut()})
	check(err)
	say("the lock, which %q had, is given to %q: its sidecar has 15 s", had, name)
}
