// Tests of the shared clock. Outside the proof.

package oplog

import (
	"context"
	"crypto/sha256"
	"encoding/hex"
	"strings"
	"sync"
	"testing"
	"time"

	"gateway/internal/etcd"
)

func digestText(text []byte) string {
	sum := sha256.Sum256(text)
	return hex.EncodeToString(sum[:])
}

// machine has a clock that a test sets.
type machine struct {
	mu            sync.Mutex
	wall, running time.Duration
}

func (m *machine) pass(wall, running time.Duration) {
	m.mu.Lock()
	defer m.mu.Unlock()
	m.wall, m.running = m.wall+wall, m.running+running
}

func clockOf(cluster *etcd.Cluster, name string, m *machine, alone bool) *Clock {
	c := NewClock(cluster, "drf/", name, 10*time.Second, alone)
	c.now = func() time.Time {
		m.mu.Lock()
		defer m.mu.Unlock()
		return time.UnixMilli(1_700_000_000_000).Add(m.wall)
	}
	c.running = func() time.Duration {
		m.mu.Lock()
		defer m.mu.Unlock()
		return m.running
	}
	c.offset, c.reached, c.sharing = c.apart(), c.running(), c.running()
	return c
}

func expectRenew(t *testing.T, what string, c *Clock, text string) {
	t.Helper()
	err := c.renew(context.Background())
	if (err == nil) != (text == "") || err != nil && !strings.Contains(err.Error(), text) {
		t.Errorf("%s: %v, want %q", what, err, text)
	}
}

func TestTwoClocks(t *testing.T) {
	t.Parallel()
	cluster := withEtcd(t)
	ours, theirs := &machine{}, &machine{}
	ours.pass(0, time.Hour) // the machine runs for longer than the gateway
	a, b := clockOf(cluster, "a", ours, false), clockOf(cluster, "b", theirs, false)
	expectRenew(t, "the first waits whether there is another", a, "waiting")
	ours.pass(liveFor, liveFor)
	expectRenew(t, "then it sets the clock", a, "")
	theirs.pass(liveFor, liveFor)
	expectRenew(t, "another agrees", b, "")
	theirs.pass(8*time.Second, 0)
	expectRenew(t, "a small difference is borne", b, "")
	if b.Ahead() != 4*time.Second { // of the median of two, which is between them
		t.Error("it is ahead by", b.Ahead())
	}
	theirs.pass(20*time.Second, 0)
	expectRenew(t, "a step ahead", b, "moved")
	theirs.pass(-60*time.Second, 0)
	expectRenew(t, "a step back", b, "moved")
	theirs.pass(34*time.Second, 0)
	expectRenew(t, "it is set right", b, "")
	ours.pass(time.Hour, time.Hour)
	theirs.pass(time.Hour, time.Hour)
	expectRenew(t, "after a time when nobody could be reached the last one continues", b, "")
	expectRenew(t, "and so does the other", a, "")
	wrong := clockOf(cluster, "c", &machine{wall: 2*time.Hour + time.Minute}, false)
	expectRenew(t, "a machine that starts ahead", wrong, "ahead")
	slow := clockOf(cluster, "c", &machine{wall: time.Minute}, false)
	expectRenew(t, "a machine that starts behind", slow, "behind")
}

// Of three gateways, one whose clock drifts is refused, whether it drifts forward or backward, and the two others continue.
func TestMajorityOfClocks(t *testing.T) {
	t.Parallel()
	for _, step := range []time.Duration{-400 * time.Millisecond, 400 * time.Millisecond} {
		cluster := withEtcd(t)
		machines := []*machine{{}, {}, {}}
		var clocks []*Clock
		for k, m := range machines {
			clocks = append(clocks, clockOf(cluster, string(rune('a'+k)), m, false))
		}
		pass := func(drift time.Duration) (faults [3]string) {
			for k, m := range machines {
				m.pass(500*time.Millisecond, 500*time.Millisecond)
				if k == 2 {
					m.pass(drift, 0)
				}
				if err := clocks[k].renew(context.Background()); err != nil {
					faults[k] = err.Error()
				}
			}
			return faults
		}
		for n := 0; n < 10; n++ {
			pass(0)
		}
		refused := 0
		for n := 0; n < 60; n++ {
			faults := pass(step)
			if faults[0] != "" || faults[1] != "" {
				t.Fatalf("drift %v, step %d: a right clock is refused: %v", step, n, faults)
			}
			if faults[2] != "" {
				refused++
				if n < 20 {
					t.Errorf("drift %v, step %d: refused too early: %v", step, n, faults)
				}
			} else if n > 30 {
				t.Errorf("drift %v, step %d: the wrong clock is not refused", step, n)
			}
		}
		if refused == 0 {
			t.Errorf("drift %v: never refused", step)
		}
	}
}

// A lone gateway starts even if its clock is far ahead of the last time, and warns about this.
func TestLoneClockFarAhead(t *testing.T) {
	t.Parallel()
	cluster := withEtcd(t)
	expectRenew(t, "the first start", clockOf(cluster, "one", &machine{}, true), "")
	later := clockOf(cluster, "one", &machine{wall: 5 * time.Hour}, true)
	expectRenew(t, "five hours later", later, "")
	if !strings.Contains(later.Warning(), "5h0m0s ahead") {
		t.Errorf("warning %q", later.Warning())
	}
	expectRenew(t, "a machine behind", clockOf(cluster, "one", &machine{wall: time.Hour}, true), "behind")
}

// A gateway that cannot reach a majority notices that it is cut off, and later that it is connected again.
func TestCutOff(t *testing.T) {
	t.Parallel()
	cluster, m := withEtcd(t), &machine{}
	c := clockOf(cluster, "one", m, true)
	expectRenew(t, "at first", c, "")
	lost := c.Lost()
	m.pass(leaseFor+time.Second, leaseFor+time.Second)
	if !c.IsCutOff() {
		t.Error("it does not know that it is cut off")
	}
	c.checkLost()
	select {
	case <-lost:
	default:
		t.Error("streams are not told")
	}
	expectRenew(t, "again", c, "")
	if c.IsCutOff() {
		t.Error("it does not know that it is no longer cut off")
	}
	select {
	case <-c.Lost():
		t.Error("new streams end")
	default:
	}
}
