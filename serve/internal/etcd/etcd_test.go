// Tests of the embedded member and of connections. Outside the proof.

package etcd

import (
	"bytes"
	"context"
	"crypto/sha256"
	"errors"
	"fmt"
	"net"
	"os"
	"path/filepath"
	"strings"
	"testing"
	"time"
)

func TestLoneMember(t *testing.T) {
	ctx, folder := context.Background(), t.TempDir()
	c, err := Open(ctx, Config{Name: "one", Folder: folder, Quota: 1 << 30})
	if err != nil {
		t.Fatal(err)
	}
	for end := time.Now().Add(30 * time.Second); c.Problem() != ""; time.Sleep(10 * time.Millisecond) {
		if time.Now().After(end) {
			t.Fatal(c.Problem())
		}
	}
	if _, err := c.Client().Put(ctx, "a", "b"); err != nil {
		t.Fatal(err)
	}
	if _, err := os.Stat(filepath.Join(folder, "etcd.sock")); err != nil && len(folder) < 80 {
		t.Error("it has no socket:", err)
	}
	used, file, err := c.Size(ctx)
	if err != nil || used <= 0 || file < used {
		t.Error(used, file, err)
	}
	var snapshot bytes.Buffer
	if err := c.WriteSnapshot(ctx, &snapshot); err != nil {
		t.Fatal(err)
	}
	store := snapshot.Bytes()[:snapshot.Len()-sha256.Size]
	if sum := sha256.Sum256(store); !bytes.Equal(sum[:], snapshot.Bytes()[len(store):]) {
		t.Error("a snapshot does not end with its digest")
	}
	start := time.Now()
	c.Close()
	if took := time.Since(start); took > 5*time.Second {
		t.Error("closing took", took)
	}
}

// freeAddress returns a loopback address that was free just before.
func freeAddress(t *testing.T) string {
	listener, err := net.Listen("tcp", "127.0.0.1:0")
	if err != nil {
		t.Fatal(err)
	}
	defer listener.Close()
	return listener.Addr().String()
}

// A member without a majority reports this, and stops when it is asked to.
func TestMemberWithoutMajority(t *testing.T) {
	// Nobody listens on the ports of the others.
	members := fmt.Sprintf("a=http://%s,b=http://127.0.0.1:1,c=http://127.0.0.1:2", freeAddress(t))
	c, err := Open(context.Background(), Config{Name: "a", Folder: t.TempDir(), Quota: 1 << 30, Members: members})
	if err != nil {
		t.Fatal(err)
	}
	if problem := c.Problem(); !strings.Contains(problem, "waits for a majority of the members a=http") {
		t.Error(problem)
	}
	start := time.Now()
	c.Close()
	if took := time.Since(start); took > 5*time.Second {
		t.Error("closing took", took)
	}
}

func TestMembersAreChecked(t *testing.T) {
	for members, want := range map[string]string{"a=http://127.0.0.1:1,b": `"b": expected NAME=URL`, "b=http://127.0.0.1:1": "does not have this gateway's -name"} {
		if _, err := Open(context.Background(), Config{Name: "a", Folder: t.TempDir(), Members: members}); err == nil || !strings.Contains(err.Error(), want) {
			t.Errorf("%s: %v", members, err)
		}
	}
}

// Requests under way end when their member is left.
func TestLeave(t *testing.T) {
	config := Config{URLs: "http://127.0.0.1:1,http://127.0.0.1:2"}
	c := &Cluster{left: make(chan struct{})} // which nothing watches
	connect, err := connector(config)
	if err == nil {
		_, err = c.connectAll(connect, strings.Split(config.URLs, ","), config)
	}
	if err != nil {
		t.Fatal(err)
	}
	defer c.closeClients()
	one, other := c.clients[0], c.clients[1]
	client, ctx, cancel := c.Ask(context.Background(), time.Minute)
	defer cancel()
	if client != one {
		t.Error("the first member is not asked")
	}
	c.Leave(client, errors.New("it hangs"))
	select {
	case <-ctx.Done():
	case <-time.After(10 * time.Second):
		t.Error("a request to a member that was left continues")
	}
	if c.Leave(client, ctx.Err()); c.Client() != other {
		t.Error("the next member was left for an error of the one before")
	}
}

// Few large entries are held, and many small ones.
func TestEntries(t *testing.T) {
	for _, one := range []struct {
		average float64
		want    uint64
	}{{0, mostEntries}, {1000, mostEntries}, {entryBytes / 100, 99}, {4 << 20, leastEntries}} {
		if got := entriesOf(one.average, entryBytes); got != one.want {
			t.Errorf("%.0f bytes: %d entries, want %d", one.average, got, one.want)
		}
	}
	average := weigh(1000, 1<<20)
	if average != 1<<20 {
		t.Error("a large entry does not count at once:", average)
	}
	for n := 0; n < 100; n++ {
		average = weigh(average, 1000)
	}
	if average > 2000 {
		t.Error("large entries are not forgotten:", average)
	}
}
