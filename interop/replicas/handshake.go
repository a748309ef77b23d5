package main

import (
	"crypto/tls"
	"errors"
	"fmt"
	"io"
	"net"
	"strings"
	"time"
)

const handshakeWait = 500 * time.Millisecond

// trouble is a word on certificates for one who gets no answer of these nodes: one of TLS has expired, or a handshake fails. Empty where neither is so.
func (k *keys) trouble(nodes ...string) string {
	if words := expiry(); words != "" || k.tls == nil {
		return words
	}
	found := make(chan error, len(nodes))
	for _, node := range nodes {
		go func(node string) { found <- handshake(strings.TrimPrefix(node, "https://"), k.tls) }(node)
	}
	for range nodes {
		if err := <-found; err != nil {
			return fmt.Sprintf(" (%v)", err)
		}
	}
	return ""
}

// handshake is why one side doesn't take the other's certificate; nothing where both do, or where no answer comes.
func handshake(node string, with *tls.Config) error {
	line, err := tls.DialWithDialer(&net.Dialer{Timeout: handshakeWait}, "tcp", node, with)
	if err == nil {
		defer line.Close()
		line.SetReadDeadline(time.Now().Add(handshakeWait))
		_, err = line.Read(make([]byte, 1)) // what a node has against this program's certificate comes only now
	}
	var op *net.OpError
	if errors.As(err, &op) && op.Op != "remote error" || err == io.EOF {
		return nil
	}
	return err
}
