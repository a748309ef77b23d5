package main

import (
	"bufio"
	"context"
	"crypto/tls"
	"crypto/x509"
	"fmt"
	"os"
	"strconv"
	"strings"
	"sync"
	"time"

	"go.etcd.io/etcd/clientv3"
	"go.uber.org/zap"
)

const confFile = "/etc/allocd/etcd.conf"

// keys are a book's keys on the nodes of etcd: all that begin with root.
type keys struct {
	root  string
	nodes []string
	tls   *tls.Config
	lock  sync.Mutex // of line and slow
	line  *clientv3.Client
	slow  bool // the last page that was read took long
}

// header is what the key `head` says: ENTRIES LENGTH RUN DIGEST. The digest is the SHA-256 of the book's first LENGTH bytes.
type header struct {
	known           bool
	entries, length int64
	run, digest     string
}

func (h header) String() string {
	return fmt.Sprintf("%d %d %s %s", h.entries, h.length, h.run, h.digest)
}

func quota() int64 {
	if n, err := strconv.ParseInt(os.Getenv("QUOTA"), 10, 64); err == nil && n > 0 {
		return n
	}
	return 2 << 30
}

// configured has what the environment lacks be as the units have it.
func configured(book string) {
	file, err := os.Open(confFile)
	if os.Getenv("ETCD") != "" || err != nil {
		return
	}
	defer file.Close()
	for lines := bufio.NewScanner(file); lines.Scan(); {
		if name, value, found := strings.Cut(lines.Text(), "="); found && (name == "ETCD" || name == "QUOTA") {
			os.Setenv(name, strings.Trim(value, `"'`))
		}
	}
	if own := "/etc/allocd/etcd/" + book; os.Getenv("TLS") == "" {
		os.Setenv("TLS", "/etc/allocd/etcd/ca.pem,"+own+".pem,"+own+".key")
	}
}

// newKeys reads the environment.
func newKeys(book string) *keys {
	if book == "" || strings.ContainsAny(book, "/ \n") {
		lost("%q can't be a book's name", book)
	}
	configured(book)
	nodes := os.Getenv("ETCD")
	if nodes == "" {
		nodes = "127.0.0.1:2379"
	}
	k := &keys{root: "/allocd/" + book + "/", nodes: strings.Split(nodes, ",")}
	if files := os.Getenv("TLS"); files != "" {
		k.tls = secured(strings.Split(files, ","))
		for i, node := range k.nodes {
			k.nodes[i] = "https://" + node
		}
	}
	return k
}

// another has a line of its own, so that nothing waits for what is asked on the first one.
func (k *keys) another() *keys { return &keys{root: k.root, nodes: k.nodes, tls: k.tls} }

func secured(files []string) *tls.Config {
	if len(files) != 3 {
		lost("TLS isn't CA,CERTIFICATE,KEY")
	}
	text, err := os.ReadFile(files[0])
	check(err)
	authority := x509.NewCertPool()
	if !authority.AppendCertsFromPEM(text) {
		lost("%s has no certificate", files[0])
	}
	own, err := tls.LoadX509KeyPair(files[1], files[2])
	check(err)
	expires(text, own.Certificate[0])
	return &tls.Config{RootCAs: authority, Certificates: []tls.Certificate{own}, MinVersion: tls.VersionTLS12}
}

func (k *keys) config(nodes ...string) clientv3.Config {
	quiet := zap.NewProductionConfig() // what fails is said once, in this program's words
	quiet.Level = zap.NewAtomicLevelAt(zap.FatalLevel)
	return clientv3.Config{Endpoints: nodes, DialTimeout: askWait, TLS: k.tls, LogConfig: &quiet, DialKeepAliveTime: 6 * time.Second, DialKeepAliveTimeout: 2 * time.Second}
}

// swap does what is asked where all tests hold, and reads what is asked else.
func (k *keys) swap(tests []clientv3.Cmp, then []clientv3.Op, other ...clientv3.Op) (*clientv3.TxnResponse, error) {
	return k.swapWithin(putPatience, tests, then, other...)
}

func (k *keys) swapWithin(p waits, tests []clientv3.Cmp, then []clientv3.Op, other ...clientv3.Op) (said *clientv3.TxnResponse, err error) {
	err = k.try(p, func(within context.Context, line *clientv3.Client) error {
		said, err = line.Txn(within).If(tests...).Then(then...).Else(other...).Commit()
		return err
	})
	return said, err
}

// read reads in one revision.
func (k *keys) read(ops ...clientv3.Op) []*clientv3.GetResponse {
	return k.readWithin(putPatience, ops...)
}

func (k *keys) readWithin(p waits, ops ...clientv3.Op) []*clientv3.GetResponse {
	said, err := k.swapWithin(p, nil, ops)
	check(err)
	rows := make([]*clientv3.GetResponse, len(ops))
	for i, it := range said.Responses {
		rows[i] = (*clientv3.GetResponse)(it.GetResponseRange())
	}
	return rows
}

// get gives a key's value and the revision in which it was put; 0 where it isn't there.
func (k *keys) get(key string) ([]byte, int64) {
	return first(k.read(clientv3.OpGet(k.root + key))[0])
}

func first(rows *clientv3.GetResponse) ([]byte, int64) {
	for _, kv := range rows.Kvs {
		return kv.Value, kv.ModRevision
	}
	return nil, 0
}

// parsed is the header that a value of `head` says.
func parsed(value []byte) (header, bool) {
	h := header{known: true}
	n, _ := fmt.Sscanf(string(value), "%d %d %s %s", &h.entries, &h.length, &h.run, &h.digest)
	return h, n == 4 && h.entries >= 0 && h.length > 0 && len(h.digest) == 64
}

func headerOf(rows *clientv3.GetResponse) (header, int64) {
	value, revision := first(rows)
	if revision == 0 {
		return header{entries: -1, digest: emptyDigest}, 0
	}
	h, well := parsed(value)
	if !well {
		lost("head is %q", value)
	}
	return h, revision
}

func (k *keys) head() (header, int64) { return headerOf(k.read(clientv3.OpGet(k.root + "head"))[0]) }

// adopted is the run that adopted the book last.
func (k *keys) adopted() string {
	if run, _ := k.get("adopted"); run != nil {
		return string(run)
	}
	return notAdopted
}

// since holds where a key was last put in that revision; 0 stands for one that isn't there.
func (k *keys) since(key string, revision int64) clientv3.Cmp {
	return clientv3.Compare(clientv3.ModRevision(k.root+key), "=", revision)
}

func (k *keys) is(key, value string) clientv3.Cmp {
	return clientv3.Compare(clientv3.Value(k.root+key), "=", value)
}

func (k *keys) opPut(key, value string) clientv3.Op { return clientv3.OpPut(k.root+key, value) }

func (k *keys) put(key, value string) {
	_, err := k.swap(nil, []clientv3.Op{k.opPut(key, value)})
	check(err)
}

// size gives the bytes of a node's database, and what the node has against itself.
func (k *keys) size(node string, long time.Duration) (int64, []string, error) {
	line, err := clientv3.New(k.config(node))
	if err != nil {
		return 0, nil, err
	}
	defer line.Close()
	within, end := context.WithTimeout(context.Background(), long)
	defer end()
	status, err := line.Status(within, node)
	if err != nil {
		return 0, nil, err
	}
	return status.DbSize, status.Errors, nil
}
