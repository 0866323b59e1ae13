// Tests of the reports of gateways. Outside the proof.

package members

import (
	"context"
	"encoding/json"
	"testing"
	"time"

	"gateway/internal/etcd"
	"gateway/internal/etcdtest"
)

// tableOf returns the table of a gateway that has applied some messages.
func tableOf(cluster *etcd.Cluster, name string, messages *int64, running ...string) *Table {
	return New(cluster, "drf/members/", name, func() Gateway { return Gateway{Version: "1", Ready: true, Messages: *messages} }, func() []string { return running })
}

// If one gateway does not know an event, or has not reported that it does, the event is not used.
func TestAllKnow(t *testing.T) {
	cluster, ctx, now := etcdtest.Start(t, 1<<30), context.Background(), time.Now()
	known := map[string][]string{"a": {"set_framework"}, "b": nil}
	table := func(name string, running ...string) *Table {
		return New(cluster, "drf/members/", name, func() Gateway { return Gateway{Events: known[name]} }, func() []string { return running })
	}
	a, b := table("a", "b"), table("b", "a")
	check := func(what string, want bool, asked ...*Table) {
		t.Helper()
		for _, one := range asked {
			if err := one.report(ctx, now); err != nil {
				t.Fatal(err)
			}
		}
		for _, one := range asked {
			if one.AllKnow("set_framework") != want || one.AllKnow("other") {
				t.Errorf("%s: %s says %v", what, one.name, !want)
			}
		}
	}
	check("b has not reported", false, a)
	check("b does not know it", false, b, a)
	known["b"] = []string{"another", "set_framework"}
	check("both know it", true, b, a, b)
	known["a"] = nil
	check("a no longer knows it", false, a, b)
	check("a runs alone", false, table("a"))
	known["a"] = []string{"set_framework"}
	check("a runs alone and knows it", true, table("a"))
	now = now.Add(-time.Minute)
	check("b's last report is old", false, table("a", "b"))
}

func (t *Table) find(test *testing.T, name string, now time.Time) Gateway {
	test.Helper()
	for _, g := range t.list(now).Gateways {
		if g.Name == name {
			return g
		}
	}
	test.Fatalf("%s is not listed", name)
	return Gateway{}
}

func TestGatewaysKnowEachOther(t *testing.T) {
	cluster, ctx, now := etcdtest.Start(t, 1<<30), context.Background(), time.Now()
	counts := []int64{10, 10}
	a, b := tableOf(cluster, "a", &counts[0], "b"), tableOf(cluster, "b", &counts[1], "a")
	report := func(tables ...*Table) {
		t.Helper()
		for _, one := range tables {
			if err := one.report(ctx, now); err != nil {
				t.Fatal(err)
			}
		}
	}
	if report(a); a.AllReport() {
		t.Error("b has not reported, and runs")
	}
	if report(b, a); !a.AllReport() || !b.AllReport() {
		t.Error("both reported")
	}
	if g := a.find(t, "b", now); !g.Live || g.Lag != 0 || g.Messages != 10 || g.Version != "1" || g.Etcd == nil {
		t.Errorf("%+v", g)
	}
	counts[1] = 25 // it is ahead of what a has applied
	report(b, a)
	if g := a.find(t, "a", now); g.Lag != 15 {
		t.Errorf("a is behind by %d", g.Lag)
	}
	if g := a.find(t, "b", now); g.Lag != 0 {
		t.Errorf("b is behind by %d", g.Lag)
	}
	counts[0] = 90 // a report that was written later is no lag of b
	if report(a); a.find(t, "b", now).Lag != 0 {
		t.Errorf("b is behind by %d", a.find(t, "b", now).Lag)
	}
	report(b, a)
	if g := a.find(t, "b", now); g.Lag != 65 {
		t.Errorf("b is behind by %d", g.Lag)
	}
	all := a.list(now)
	if len(all.Gateways) != 2 || all.Gateways[0].Name != "a" || len(all.Etcd) != 1 {
		t.Fatalf("%+v", all)
	}
	if m := all.Etcd[0]; !m.Leader || !m.Reachable || m.Name != "one" || m.Quota != 1<<30 || m.Used <= 0 || m.Size < m.Used || m.Index <= 0 || m.Version != "3.4.23" || m.Lag != 0 {
		t.Errorf("%+v", m)
	}
	later := now.Add(time.Minute)
	if g := a.find(t, "b", later); g.Live || g.SilentMS != 60_000 {
		t.Errorf("%+v", g)
	}
	if m := a.list(later).Etcd[0]; m.Reachable {
		t.Error("the member of a gateway that is silent counts as reached")
	}
	if gateways := a.list(now.AddDate(0, 0, 8)).Gateways; len(gateways) != 1 {
		t.Errorf("%+v", gateways)
	}
}

// A gateway that starts sees reports of gateways that stopped long ago, and does not take these for running ones.
func TestOldReports(t *testing.T) {
	cluster, ctx, now := etcdtest.Start(t, 1<<30), context.Background(), time.Now()
	text, _ := json.Marshal(Gateway{Name: "gone", At: now.Add(-time.Hour).UnixMilli()})
	for name, value := range map[string]string{"gone": string(text), "odd": "{", "other": string(text)} {
		if _, err := cluster.Client().Put(ctx, "drf/members/"+name, value); err != nil {
			t.Fatal(err)
		}
	}
	count := int64(1)
	a := tableOf(cluster, "a", &count, "gone")
	if err := a.report(ctx, now); err != nil {
		t.Fatal(err)
	}
	if g := a.find(t, "gone", now); g.Live || g.SilentMS < 3_590_000 {
		t.Errorf("%+v", g)
	}
	if a.AllReport() || len(a.list(now).Gateways) != 2 {
		t.Errorf("%+v", a.list(now).Gateways)
	}
}
