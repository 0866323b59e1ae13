// Tests of limits. Outside the proof.

package limit

import (
	"context"
	"errors"
	"testing"
	"time"
)

func TestRates(t *testing.T) {
	now := time.Unix(1000, 0)
	l := New(Rates{Requests: 10, Bytes: 1000, Lines: 100, Burst: 2 * time.Second, Streams: 2})
	l.now = func() time.Time { return now }
	count := func(by string) (n int) {
		for l.Request(by) == nil {
			n++
		}
		return n
	}
	if n := count("a"); n != 20 {
		t.Errorf("a burst of %d requests, want 20", n)
	}
	if n := count("b"); n != 20 {
		t.Errorf("another caller has %d requests, want 20", n)
	}
	now = now.Add(time.Second)
	if n := count("a"); n != 10 {
		t.Errorf("%d requests after a second, want 10", n)
	}
	limited := (*Error)(nil)
	if err := l.Request("a"); !errors.As(err, &limited) || limited.RetryAfter <= 0 || limited.RetryAfter > time.Second {
		t.Error(err)
	}
	now = now.Add(time.Hour)
	if n := count("a"); n != 20 {
		t.Errorf("%d requests after an hour, want 20", n)
	}
	// One batch may be larger than a burst, and then the caller waits for as long as its size takes.
	if err := l.Batch("a", 10_000, 1); err != nil {
		t.Error(err)
	}
	now = now.Add(7 * time.Second)
	if err := l.Batch("a", 1, 1); err == nil {
		t.Error("a batch after 7 s of 8")
	}
	now = now.Add(2 * time.Second)
	if err := l.Batch("a", 1, 1); err != nil {
		t.Error(err)
	}
	if err := l.Batch("b", 1, 5000); err != nil {
		t.Error(err)
	}
	if err := l.Batch("b", 1, 1); err == nil {
		t.Error("lines are not limited")
	}
}

func TestStreams(t *testing.T) {
	l := New(Rates{Streams: 2, Burst: time.Second})
	release, err := l.Stream("a")
	if err != nil {
		t.Fatal(err)
	}
	if _, err := l.Stream("a"); err != nil {
		t.Error(err)
	}
	if _, err := l.Stream("a"); err == nil {
		t.Error("a third stream is open")
	}
	if _, err := l.Stream("b"); err != nil {
		t.Error("another caller's:", err)
	}
	release()
	if _, err := l.Stream("a"); err != nil {
		t.Error("after one is closed:", err)
	}
	for n := 0; n < 1000; n++ {
		if err := l.Request("a"); err != nil {
			t.Fatal("0 is a limit:", err)
		}
	}
}

func TestSlots(t *testing.T) {
	s := NewSlots(1, 50*time.Millisecond)
	release, err := s.Take(context.Background(), "a")
	if err != nil {
		t.Fatal(err)
	}
	limited := (*Error)(nil)
	if _, err := s.Take(context.Background(), "b"); !errors.As(err, &limited) {
		t.Error(err)
	}
	release()
	if _, err := s.Take(context.Background(), "b"); err != nil {
		t.Error(err)
	}
}

// A caller that never releases its slots leaves half of them to others.
func TestSlotsOfOneCaller(t *testing.T) {
	s := NewSlots(4, 50*time.Millisecond)
	for k := 0; k < 4; k++ {
		if _, err := s.Take(context.Background(), "slow"); (err == nil) != (k < 2) {
			t.Errorf("slot %d of one caller: %v", k+1, err)
		}
	}
	release, err := s.Take(context.Background(), "other")
	if err != nil {
		t.Fatal(err)
	}
	release()
	for k := 0; k < 3; k++ {
		if _, err := s.Take(context.Background(), "third"); (err == nil) != (k < 2) {
			t.Errorf("slot %d of a third caller: %v", k+1, err)
		}
	}
	limited := (*Error)(nil)
	if _, err := s.Take(context.Background(), "other"); !errors.As(err, &limited) {
		t.Error("all slots are taken:", err)
	}
}
