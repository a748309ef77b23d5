package main

import (
	"context"
	"errors"
	"testing"
	"time"

	"go.etcd.io/etcd/clientv3"
)

func TestTheFirstNodeHasLittleTime(t *testing.T) {
	p := waits{each: time.Minute, first: 50 * time.Millisecond}
	given := time.Duration(0)
	asked := func(k *keys, takes time.Duration, answer error) {
		line, err := clientv3.New(clientv3.Config{Endpoints: []string{"127.0.0.1:1"}})
		if err != nil {
			t.Fatal(err)
		}
		k.line = line
		k.try(p, func(within context.Context, _ *clientv3.Client) error {
			until, _ := within.Deadline()
			given = time.Until(until)
			time.Sleep(takes)
			return answer
		})
	}
	k := &keys{}
	if asked(k, 0, errors.New("nothing")); given > p.first {
		t.Errorf("a node that may be gone has %v", given)
	}
	if asked(k, 2*p.first, nil); !k.slow {
		t.Error("a slow answer isn't seen as one")
	}
	if asked(k, 0, nil); given < p.each/2 || k.slow {
		t.Errorf("after a slow answer a node has %v", given)
	}
	if asked(k, 0, nil); given > p.first {
		t.Errorf("after a quick answer a node has %v", given)
	}
}
