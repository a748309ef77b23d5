package main

import (
	"fmt"
	"time"

	"go.etcd.io/etcd/clientv3"
)

const (
	sizeEach   = 2 * time.Second
	nearQuota  = 80 // percent, from which on it is told
	quotaAlarm = "alarm/room"
)

// watchRoom tells which nodes don't answer, and which have little room left; once, and when it is over.
func (k *keys) watchRoom() {
	for said := map[string]string{quotaAlarm: "as a run before this one left it"}; ; time.Sleep(sizeEach) {
		k.lookAtRoom(said)
	}
}

func (k *keys) lookAtRoom(said map[string]string) {
	near, answering := "", 0
	for _, node := range k.nodes {
		words := ""
		used, errors, err := k.size(node, askWait)
		if err == nil {
			answering++
		}
		switch {
		case err != nil:
			words = "doesn't answer: " + err.Error() + k.trouble(node)
		case len(errors) > 0:
			words = "has an alarm: " + errors[0]
			near = node + " " + words
		case used*100 > quota()*nearQuota:
			words = fmt.Sprintf("has used %d %% of its quota: compact and defragment it", used*100/quota())
			near = node + " " + words
		}
		if words != said[node] {
			if words == "" {
				say("etcd's node %s is well again", node)
			} else {
				say("etcd's node %s %s", node, words)
			}
			said[node] = words
		}
	}
	shown.setNodes(answering, len(k.nodes))
	if near != said[quotaAlarm] {
		said[quotaAlarm] = near
		op := k.opPut(quotaAlarm, near)
		if near == "" {
			op = clientv3.OpDelete(k.root + quotaAlarm)
		}
		k.swap(nil, []clientOp{op}) // where there is no room at all this fails, and the line above is the alarm
	}
}

// over has nobody be told any more what this machine, or this watch, had against the book: it goes on with it.
func (k *keys) over(name string) {
	if words, _ := k.get("alarm/" + name); words != nil {
		k.swap(nil, []clientOp{clientv3.OpDelete(k.root + "alarm/" + name)})
	}
}
