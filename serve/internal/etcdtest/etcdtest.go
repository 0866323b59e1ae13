// Package etcdtest starts an etcd for tests of other packages. Outside the proof.
package etcdtest

import (
	"context"
	"testing"
	"time"

	"gateway/internal/etcd"
)

// Start returns an embedded member with a quota, which ends with the test.
func Start(t testing.TB, quota int64) *etcd.Cluster {
	t.Helper()
	cluster, err := etcd.Open(context.Background(), etcd.Config{Name: "one", Folder: t.TempDir(), Quota: quota})
	if err != nil {
		t.Fatal(err)
	}
	t.Cleanup(cluster.Close)
	for end := time.Now().Add(30 * time.Second); cluster.Problem() != ""; time.Sleep(10 * time.Millisecond) {
		if time.Now().After(end) {
			t.Fatal(cluster.Problem())
		}
	}
	return cluster
}
