// The clock that gateways share. It ensures that no message has a timestamp far from the clocks of most gateways. Outside the proof.

package oplog

import (
	"context"
	"fmt"
	"log"
	"sort"
	"strconv"
	"strings"
	"sync"
	"time"

	"gateway/internal/etcd"

	"go.etcd.io/etcd/clientv3"
	"golang.org/x/sys/unix"
)

// Clock bounds the timestamps that this gateway gives. The allocator's time never goes back, so one timestamp far ahead would hold filters for
// as long. Each gateway writes its time under its name twice a second, and reads the others'. Those with which more than half of the live
// gateways agree advance a shared key to the median of their times, and each transaction of messages requires that its timestamp be near that
// key. The key only moves forward, so a clock that lags cannot pull it back. Where no majority agrees, those near the key continue.
type Clock struct {
	cluster *etcd.Cluster
	name    string
	prefix  string
	bound   time.Duration
	alone   bool // no other gateway can use the list

	now     func() time.Time     // of the machine
	running func() time.Duration // since the machine started, sleep included

	offset  time.Duration // between the two, when this gateway last agreed with others or started
	others  map[string]*otherClock
	shared  int64         // the shared key's revision
	sharing time.Duration // when that last changed

	mu      sync.Mutex
	fault   string        // why this gateway may not append
	warning string        // what is odd about its clock
	reached time.Duration // when etcd last answered
	live    []string      // the other gateways that run
	ahead   time.Duration // of the median of the gateways that run
	lost    chan struct{} // closed while etcd has not answered for a lease
}

// otherClock is the clock of another gateway, as far as it is known.
type otherClock struct {
	revision int64
	seen     time.Duration // when its record last changed
	base     time.Duration // its time then, minus the time since this machine started
}

const (
	liveFor  = 3 * time.Second         // a gateway whose record does not change for so long is not running
	waitFor  = 1500 * time.Millisecond // for others, before the shared clock is moved far
	leaseFor = 5 * time.Second         // a gateway that does not reach etcd for so long is cut off
	farAhead = time.Hour               // of a lone gateway's clock: worth a warning
)

// NewClock returns the clock of the gateway with a name. Bound is how far its time may be from the others'.
func NewClock(cluster *etcd.Cluster, prefix, name string, bound time.Duration, alone bool) *Clock {
	c := &Clock{cluster: cluster, name: name, prefix: prefix + "clocks/", bound: bound, alone: alone, now: time.Now, running: sinceBoot,
		others: map[string]*otherClock{}, fault: "its clock is not compared yet", lost: make(chan struct{})}
	c.offset, c.reached, c.sharing = c.apart(), c.running(), c.running()
	return c
}

func sinceBoot() time.Duration {
	var t unix.Timespec
	if err := unix.ClockGettime(unix.CLOCK_BOOTTIME, &t); err != nil {
		panic(fmt.Sprintf("the machine's running time: %v", err)) // Linux has had it since 2.6.39
	}
	return time.Duration(t.Nano())
}

func (c *Clock) apart() time.Duration { return time.Duration(c.now().UnixNano()) - c.running() }

func (c *Clock) key() string { return c.prefix + "shared" }

func stamp(at int64) string { return fmt.Sprintf("%016d", at) }

// Now returns the machine's time.
func (c *Clock) Now() time.Time { return c.now() }

// within is the condition that a timestamp is near the shared clock. That is the median, from which a gateway in agreement may be apart by
// the bound, and which others estimate to a second or so.
func (c *Clock) within(at int64) []clientv3.Cmp {
	bound := c.bound.Milliseconds() * 3 / 2
	return []clientv3.Cmp{clientv3.Compare(clientv3.Value(c.key()), ">", stamp(at-bound)), clientv3.Compare(clientv3.Value(c.key()), "<", stamp(at+bound))}
}

func (c *Clock) refused() error {
	if fault := c.Fault(); fault != "" {
		return &ClockError{fault}
	}
	return &ClockError{fmt.Sprintf("its clock is more than %v from the service's", c.bound)}
}

// Fault says why this gateway cannot append, or is empty.
func (c *Clock) Fault() string {
	c.mu.Lock()
	defer c.mu.Unlock()
	return c.fault
}

// Warning says what is unusual about a clock that is used nevertheless, or is empty.
func (c *Clock) Warning() string {
	c.mu.Lock()
	defer c.mu.Unlock()
	return c.warning
}

// Lost returns a channel that is closed when this gateway is cut off: etcd's majority has not answered for longer than a lease.
func (c *Clock) Lost() <-chan struct{} {
	c.mu.Lock()
	defer c.mu.Unlock()
	return c.lost
}

// IsCutOff reports whether etcd's majority has not answered for longer than a lease.
func (c *Clock) IsCutOff() bool {
	c.mu.Lock()
	defer c.mu.Unlock()
	return c.running()-c.reached > leaseFor
}

// Run compares clocks until the context ends.
func (c *Clock) Run(ctx context.Context) {
	for ; ctx.Err() == nil; time.Sleep(500 * time.Millisecond) {
		fault := ""
		if err := c.renew(ctx); err != nil {
			fault = err.Error()
		}
		c.mu.Lock()
		if (fault == "") != (c.fault == "") {
			if log.Print("clock: it agrees with the service's clock"); fault != "" {
				log.Printf("clock: %s", fault)
			}
		}
		c.fault = fault
		c.mu.Unlock()
		c.checkLost()
	}
}

// checkLost closes the channel of Lost, if this gateway is cut off.
func (c *Clock) checkLost() {
	c.mu.Lock()
	defer c.mu.Unlock()
	if c.running()-c.reached <= leaseFor {
		return
	}
	select {
	case <-c.lost:
	default:
		log.Print("this gateway is cut off: etcd's majority does not answer")
		close(c.lost)
	}
}

func (c *Clock) answered() {
	c.mu.Lock()
	defer c.mu.Unlock()
	select {
	case <-c.lost:
		log.Print("this gateway is no longer cut off")
		c.lost = make(chan struct{})
	default:
	}
	c.reached = c.running()
}

func (c *Clock) renew(ctx context.Context) error {
	client, ctx, cancel := c.cluster.Ask(ctx, time.Second)
	defer cancel()
	at := c.now().UnixMilli()
	answer, err := client.Txn(ctx).Then(clientv3.OpPut(c.prefix+"at/"+c.name, stamp(at)), clientv3.OpGet(c.prefix+"at/", clientv3.WithPrefix()), clientv3.OpGet(c.key())).Commit()
	if err != nil {
		if c.IsCutOff() { // this member is perhaps cut off from the others
			c.cluster.Leave(client, err)
		}
		return fmt.Errorf("etcd does not answer: %w", err)
	}
	c.answered()
	for _, kv := range answer.Responses[1].GetResponseRange().Kvs {
		c.see(strings.TrimPrefix(string(kv.Key), c.prefix+"at/"), kv.ModRevision, string(kv.Value))
	}
	c.setLive()
	shared, revision := int64(0), int64(0)
	if found := answer.Responses[2].GetResponseRange().Kvs; len(found) > 0 {
		revision = found[0].ModRevision
		if shared, err = strconv.ParseInt(string(found[0].Value), 10, 64); err != nil {
			return fmt.Errorf("the shared clock in etcd is damaged: %w", err)
		}
	}
	if revision != c.shared {
		c.shared, c.sharing = revision, c.running()
	}
	median, err := c.judge(at, shared)
	if err != nil || median <= shared {
		return err
	}
	return c.advance(ctx, client, revision, median)
}

// see records the time that a gateway wrote.
func (c *Clock) see(name string, revision int64, value string) {
	theirs, err := strconv.ParseInt(value, 10, 64)
	if name == c.name || err != nil {
		return
	}
	other, is := c.others[name]
	if !is {
		other = &otherClock{}
		c.others[name] = other
	}
	if other.revision != revision {
		*other = otherClock{revision, c.running(), time.Duration(theirs)*time.Millisecond - c.running()}
	}
}

// judge returns the median of the clocks that agree with this one, unless this one is wrong.
func (c *Clock) judge(at, shared int64) (median int64, err error) {
	bound, ours := c.bound.Milliseconds(), []int64{0}
	away := []int64{0} // of all live gateways
	for _, other := range c.others {
		if c.running()-other.seen < liveFor {
			theirs := (other.base + c.running()).Milliseconds() - at
			away = append(away, theirs)
			if theirs <= bound && theirs >= -bound {
				ours = append(ours, theirs)
			}
		}
	}
	c.setAhead(away)
	leapt, ahead := c.apart()-c.offset, time.Duration(at-shared)*time.Millisecond
	hasLeapt := leapt > c.bound || leapt < -c.bound
	switch {
	case 2*len(ours) > len(away) && len(away) > 1: // a majority agrees
		c.offset = c.apart()
	case hasLeapt:
		return 0, fmt.Errorf("the clock of this machine moved by %v since the gateway started: correct it, or restart the gateway", leapt.Round(time.Millisecond))
	case len(away) > 2:
		sort.Slice(away, func(i, j int) bool { return away[i] < away[j] })
		middle := time.Duration(away[len(away)/2]) * time.Millisecond
		return 0, fmt.Errorf("the clock of this machine is %s the clocks of most gateways: correct it", apartText(-middle))
	case len(away) == 2 && (ahead > c.bound || ahead < -c.bound):
		return 0, fmt.Errorf("the clock of this machine is %s the service's clock: correct it", apartText(ahead))
	}
	if ahead < -c.bound {
		return 0, fmt.Errorf("the clock of this machine is %s the service's clock: correct it", apartText(ahead))
	}
	if ahead > c.bound && !c.alone && c.running()-c.sharing < waitFor {
		return 0, fmt.Errorf("the clock of this machine is %s the service's clock: waiting for other gateways to decide", apartText(ahead))
	}
	if shared > 0 && ahead > farAhead {
		c.warn(fmt.Sprintf("the clock of this machine is %v ahead of the last time at which the service ran: check the clock", ahead.Round(time.Second)))
	}
	sort.Slice(ours, func(i, j int) bool { return ours[i] < ours[j] })
	return at + ours[(len(ours)-1)/2], nil
}

func apartText(ahead time.Duration) string {
	if ahead < 0 {
		return fmt.Sprintf("%v behind", -ahead.Round(time.Millisecond))
	}
	return fmt.Sprintf("%v ahead of", ahead.Round(time.Millisecond))
}

func (c *Clock) warn(warning string) {
	c.mu.Lock()
	defer c.mu.Unlock()
	if c.warning != warning {
		log.Printf("clock: %s", warning)
	}
	c.warning = warning
}

// advance moves the shared clock forward, unless another gateway has done it.
func (c *Clock) advance(ctx context.Context, client *clientv3.Client, revision, to int64) error {
	condition := clientv3.Compare(clientv3.ModRevision(c.key()), "=", revision)
	answer, err := client.Txn(ctx).If(condition).Then(clientv3.OpPut(c.key(), stamp(to))).Commit()
	if err != nil {
		return fmt.Errorf("the shared clock was not set: %w", err)
	}
	if answer.Succeeded {
		c.shared, c.sharing = answer.Header.Revision, c.running()
	}
	return nil
}

// Ahead returns how far this machine's clock is ahead of the median of the gateways that run, this one included.
func (c *Clock) Ahead() time.Duration {
	c.mu.Lock()
	defer c.mu.Unlock()
	return c.ahead
}

// setAhead keeps how far this clock is ahead of the median of all, whose distances from this one are given in milliseconds.
func (c *Clock) setAhead(away []int64) {
	sorted := append([]int64(nil), away...)
	sort.Slice(sorted, func(i, j int) bool { return sorted[i] < sorted[j] })
	twice := sorted[(len(sorted)-1)/2] + sorted[len(sorted)/2]
	c.mu.Lock()
	defer c.mu.Unlock()
	c.ahead = -time.Duration(twice) * time.Millisecond / 2
}

// Live returns the names of the other gateways that run, in order.
func (c *Clock) Live() []string {
	c.mu.Lock()
	defer c.mu.Unlock()
	return c.live
}

// setLive sets the names of the other gateways that run. Only Run calls it, which owns the records of others.
func (c *Clock) setLive() {
	var names []string
	for name, other := range c.others {
		if c.running()-other.seen < liveFor {
			names = append(names, name)
		}
	}
	sort.Strings(names)
	c.mu.Lock()
	defer c.mu.Unlock()
	c.live = names
}
