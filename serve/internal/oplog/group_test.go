// Tests of which batches share a transaction. Outside the proof.

package oplog

import (
	"context"
	"errors"
	"fmt"
	"testing"
	"time"
)

// If several waiting batches each touch a name that is in the conditions of the others, only one of them is appended.
func TestConditionsWithinATransaction(t *testing.T) {
	t.Parallel()
	m := &machine{}
	cluster := withEtcd(t)
	c := clockOf(cluster, "a", m, true)
	if err := c.renew(context.Background()); err != nil {
		t.Fatal(err)
	}
	l := New(cluster, "drf/", c, nil, 1000)
	ctx, cancel := context.WithTimeout(context.Background(), time.Minute)
	defer cancel()
	results := make(chan error, 8)
	for k := 0; k < 8; k++ {
		b := &Batch{Key: fmt.Sprintf("k/%d", k), Conditions: []Condition{l.Untouched("name", 0)}, Touches: []string{"name"}}
		go func() {
			_, err := l.Append(ctx, b)
			results <- err
		}()
	}
	time.Sleep(100 * time.Millisecond) // until they wait
	go l.Run(ctx)
	put := 0
	for k := 0; k < 8; k++ {
		switch err := <-results; {
		case err == nil:
			put++
		case !errors.Is(err, ErrNotDue):
			t.Error(err)
		}
	}
	if put != 1 {
		t.Errorf("%d of 8 batches were appended", put)
	}
}

// Batches that wait together are appended, however many names they touch: etcd takes 128 operations in a transaction.
func TestManyNamesWithinATransaction(t *testing.T) {
	t.Parallel()
	cluster := withEtcd(t)
	c := clockOf(cluster, "a", &machine{}, true)
	if err := c.renew(context.Background()); err != nil {
		t.Fatal(err)
	}
	l := New(cluster, "drf/", c, nil, 1000)
	ctx, cancel := context.WithTimeout(context.Background(), time.Minute)
	defer cancel()
	const count = 300
	results := make(chan error, count)
	for k := 0; k < count; k++ {
		b := &Batch{Key: fmt.Sprintf("k/%d", k), Touches: []string{fmt.Sprintf("name%d", k), "all"}}
		go func() {
			_, err := l.Append(ctx, b)
			results <- err
		}()
	}
	time.Sleep(100 * time.Millisecond) // until they wait
	go l.Run(ctx)
	for k := 0; k < count; k++ {
		if err := <-results; err != nil {
			t.Fatal(err)
		}
	}
}
