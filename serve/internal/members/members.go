// Package members, outside the proof, has the reports of each gateway and each member of etcd, so that any gateway can show all of them. No reply
// and no right depends on them.
package members

import (
	"context"
	"encoding/json"
	"log"
	"sort"
	"strings"
	"sync"
	"time"

	"gateway/internal/etcd"

	"go.etcd.io/etcd/clientv3"
)

// Gateway is the report of a gateway, completed by the gateway that shows it.
type Gateway struct {
	Name          string   `json:"name"`
	Version       string   `json:"version"`
	Drf           string   `json:"drf"`              // SHA-256 of its allocator's program
	Events        []string `json:"events,omitempty"` // newer ones that this program knows
	Started       int64    `json:"started"`          // in milliseconds, as At
	At            int64    `json:"at"`               // when it reported this, by its own clock
	Ready         bool     `json:"ready"`
	Fault         string   `json:"fault"`
	ClockFault    string   `json:"clock_fault"`
	ClockOffsetMS int64    `json:"clock_offset_ms"` // how far its clock is ahead of the gateways' median
	Messages      int64    `json:"messages"`        // that it has applied
	Lag           int64    `json:"lag"`             // messages that it has not applied, or that another gateway applied before

	Etcd *etcd.MemberStatus `json:"etcd,omitempty"` // the member inside its process

	Live     bool  `json:"live"`      // it reported in the last 10 seconds
	SilentMS int64 `json:"silent_ms"` // since its last report
}

// All is the reports of all gateways and members, each in order of their names.
type All struct {
	Gateways []Gateway           `json:"gateways"`
	Etcd     []etcd.MemberStatus `json:"etcd"`
}

const (
	reportEvery = 2 * time.Second
	liveFor     = 10 * time.Second
	forgetAfter = 7 * 24 * time.Hour // a gateway that does not report for so long is left out
)

// record is the last report of a gateway.
type record struct {
	Gateway
	revision int64 // of etcd, at which it was written
	seen     time.Time
}

// Table has the reports of all gateways. Each gateway writes its own into etcd, and reads those of others at the same time.
type Table struct {
	cluster *etcd.Cluster
	prefix  string
	name    string
	own     func() Gateway
	running func() []string // the names of the other gateways that run

	mu      sync.Mutex
	records map[string]record
	points  []point             // of the last reports of all gateways, the oldest first
	etcd    []etcd.MemberStatus // as this gateway sees them
}

// point is how far a gateway and its member of etcd were when they reported.
type point struct{ revision, messages, index int64 }

const (
	maxPoints = 256
	latest    = 1 << 62 // is after every revision
)

// New returns the table of a gateway with a name, whose keys in etcd begin with a prefix. Own returns this gateway's report, and running the names
// of the other gateways that run, of whatever version.
func New(cluster *etcd.Cluster, prefix, name string, own func() Gateway, running func() []string) *Table {
	return &Table{cluster: cluster, prefix: prefix, name: name, own: own, running: running, records: map[string]record{}}
}

// Run reports until the context ends.
func (t *Table) Run(ctx context.Context) {
	problem := ""
	for ctx.Err() == nil {
		err := t.report(ctx, time.Now())
		if text := errorText(err); text != problem && ctx.Err() == nil {
			if problem = text; err != nil {
				log.Printf("members: %v", err)
			}
		}
		select {
		case <-time.After(reportEvery):
		case <-ctx.Done():
		}
	}
}

func errorText(err error) string {
	if err == nil {
		return ""
	}
	return err.Error()
}

// describe returns what this gateway reports now.
func (t *Table) describe(now time.Time) Gateway {
	g := t.own()
	g.Name, g.At, g.Live = t.name, now.UnixMilli(), true
	return g
}

// report writes this gateway's report, and reads the others' reports.
func (t *Table) report(ctx context.Context, now time.Time) error {
	client, ctx, cancel := t.cluster.Ask(ctx, 2*time.Second)
	defer cancel()
	found, err := t.cluster.Members(ctx)
	if err != nil {
		return err
	}
	t.mu.Lock()
	t.etcd = found
	t.mu.Unlock()
	g := t.describe(now)
	for k := range found {
		if found[k].ID == t.cluster.OwnID() {
			g.Etcd = &found[k]
		}
	}
	text, err := json.Marshal(g)
	if err != nil {
		return err
	}
	answer, err := client.Txn(ctx).Then(clientv3.OpPut(t.prefix+g.Name, string(text)), clientv3.OpGet(t.prefix, clientv3.WithPrefix())).Commit()
	if err != nil {
		return err
	}
	t.mu.Lock()
	defer t.mu.Unlock()
	for _, kv := range answer.Responses[1].GetResponseRange().Kvs {
		t.see(strings.TrimPrefix(string(kv.Key), t.prefix), kv.Value, kv.ModRevision, now)
	}
	return nil
}

// see takes a report that was read from etcd. If it was written before this gateway started, its own timestamp says how old it is. The lock is
// held.
func (t *Table) see(name string, text []byte, revision int64, now time.Time) {
	old, isKnown := t.records[name]
	if isKnown && old.revision == revision {
		return
	}
	new := record{revision: revision, seen: now}
	if json.Unmarshal(text, &new.Gateway) != nil || new.Name != name { // what another version means by it is not known
		return
	}
	if at := time.UnixMilli(new.At); !isKnown && at.Before(now.Add(-liveFor)) {
		new.seen = at
	}
	t.records[name] = new
	p := point{revision: revision, messages: new.Messages}
	if new.Etcd != nil {
		p.index = new.Etcd.Index
	}
	if t.points = append(t.points, p); len(t.points) > maxPoints {
		t.points = append([]point(nil), t.points[maxPoints/2:]...)
	}
}

// AllReport reports whether each running gateway has a version that writes reports. Older ones share the list, and know fewer events.
func (t *Table) AllReport() bool {
	names := t.running()
	t.mu.Lock()
	defer t.mu.Unlock()
	for _, name := range names {
		if r, is := t.records[name]; !is || time.Since(r.seen) > liveFor {
			return false
		}
	}
	return true
}

// AllKnow reports whether the allocator of each running gateway knows an event. One that does not know it would reply differently from the others.
func (t *Table) AllKnow(event string) bool {
	names := t.running()
	if own := t.own(); !own.knows(event) {
		return false
	}
	t.mu.Lock()
	defer t.mu.Unlock()
	for _, name := range names {
		r, is := t.records[name]
		if !is || time.Since(r.seen) > liveFor || !r.knows(event) {
			return false
		}
	}
	return true
}

func (g *Gateway) knows(event string) bool {
	for _, one := range g.Events {
		if one == event {
			return true
		}
	}
	return false
}

// Lag returns the messages that this gateway has not applied, or that another gateway applied before.
func (t *Table) Lag() int64 {
	own := t.own()
	t.mu.Lock()
	defer t.mu.Unlock()
	return atLeast(own.Lag, t.most(latest).messages-own.Messages)
}

// List returns the reports of all gateways and members.
func (t *Table) List() All { return t.list(time.Now()) }

func (t *Table) list(now time.Time) All {
	own := t.describe(now)
	t.mu.Lock()
	defer t.mu.Unlock()
	all := All{Gateways: []Gateway{}, Etcd: append([]etcd.MemberStatus{}, t.etcd...)}
	for name, r := range t.records {
		g, silent := r.Gateway, now.Sub(r.seen)
		if name == t.name || silent > forgetAfter {
			continue
		}
		g.Live, g.SilentMS = silent <= liveFor, silent.Milliseconds()
		g.Lag = atLeast(g.Lag, t.most(r.revision).messages-g.Messages)
		all.Gateways = append(all.Gateways, g)
	}
	own.Lag = atLeast(own.Lag, t.most(latest).messages-own.Messages)
	own.Etcd = t.records[t.name].Etcd
	all.Gateways = append(all.Gateways, own)
	sort.Slice(all.Gateways, func(i, j int) bool { return all.Gateways[i].Name < all.Gateways[j].Name })
	for k := range all.Etcd {
		t.addReported(&all.Etcd[k], now)
	}
	sort.Slice(all.Etcd, func(i, j int) bool { return all.Etcd[i].Name < all.Etcd[j].Name })
	return all
}

func atLeast(a, b int64) int64 {
	if a < b {
		return b
	}
	return a
}

// most returns the greatest numbers of all reports up to a revision: a later report may have more without being ahead. The lock is held.
func (t *Table) most(revision int64) (most point) {
	for _, p := range t.points {
		if p.revision <= revision {
			most.messages, most.index = atLeast(most.messages, p.messages), atLeast(most.index, p.index)
		}
	}
	return most
}

// addReported adds what another gateway reported of the member inside its process. The lock is held.
func (t *Table) addReported(m *etcd.MemberStatus, now time.Time) {
	for name, r := range t.records {
		if r.Etcd == nil || r.Etcd.ID != m.ID {
			continue
		}
		revision := r.revision
		if name == t.name { // which is known at first hand
			revision = latest
		} else {
			leads := m.Leader
			*m = *r.Etcd
			m.Leader, m.Reachable = leads, m.Reachable && now.Sub(r.seen) <= liveFor
		}
		m.Lag = atLeast(0, t.most(revision).index-m.Index)
	}
}
