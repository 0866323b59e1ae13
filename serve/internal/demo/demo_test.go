// Tests of the simulated cluster, and of what a demo refuses to do. Outside the proof.

package demo

import (
	"context"
	"fmt"
	"io"
	"net"
	"strings"
	"testing"
	"time"
)

// Each offer is answered once, tasks fit into their offers, and each finishes once.
func TestTasksComeAndGo(t *testing.T) {
	c, answered, running, most := NewCluster(7), map[int64]bool{}, map[string]bool{}, 0
	number := int64(0)
	for second := 0; second < 3600; second++ {
		now := time.Duration(second) * time.Second
		if second < 3000 {
			offers := []Offer{}
			for _, one := range teams {
				number++
				offers = append(offers, Offer{"n1", one.framework, number, "cpus:8;cpus(ops):99;mem:65536;gpus:1;ports:[1-9]", one.role})
			}
			c.Take(offers, now)
		}
		for _, e := range c.Due(now) {
			switch e["event"] {
			case "finish":
				name := fmt.Sprint(e["framework"], "/", e["task"])
				if !running[name] {
					t.Fatalf("%s finishes, and does not run", name)
				}
				delete(running, name)
			case "accept", "decline":
				offer := e["offer"].(int64)
				if answered[offer] || offer > number {
					t.Fatalf("offer %d is answered twice, or was not made", offer)
				}
				answered[offer] = true
				cpus, mem, gpus := 0.0, 0.0, 0.0
				for _, one := range tasksOf(e) {
					name, has := fmt.Sprint(e["framework"], "/", one["task"]), amounts(one["use"].(string))
					if running[name] || strings.Contains(one["use"].(string), "(") {
						t.Fatalf("%s starts twice, or uses what is reserved: %v", name, one)
					}
					running[name] = true
					cpus, mem, gpus = cpus+has["cpus"], mem+has["mem"], gpus+has["gpus"]
				}
				if cpus > 8 || mem > 65536 || gpus > 1 || e["event"] == "accept" && cpus == 0 {
					t.Fatalf("%v does not fit its offer", e)
				}
			default:
				t.Fatalf("an unexpected event: %v", e)
			}
		}
		if c.Tasks() != len(running) {
			t.Fatalf("%d tasks, and %d run", c.Tasks(), len(running))
		}
		if most < len(running) {
			most = len(running)
		}
	}
	// The least that all teams want at once is 134 tasks, the most 275.
	if most < 134 || most > 275 || len(answered) != int(number) {
		t.Errorf("%d tasks at most, %d of %d offers answered", most, len(answered), number)
	}
	c.Due(1000 * time.Hour)
	if c.Tasks() != 0 {
		t.Errorf("%d tasks never finish", c.Tasks())
	}
}

func tasksOf(e Event) []Event {
	tasks, _ := e["tasks"].([]Event)
	return tasks
}

// A refused accept starts nothing.
func TestRefusedAcceptsAreForgotten(t *testing.T) {
	c := NewCluster(1)
	c.Take([]Offer{{"n1", "site", 1, "cpus:8;mem:65536", "web/front"}}, 0)
	events := c.Due(time.Minute)
	if len(events) != 1 || events[0]["event"] != "accept" || c.Tasks() == 0 {
		t.Fatal(events)
	}
	if c.Lost(events[0]); c.Tasks() != 0 || c.count["site"] != 0 {
		t.Error(c.tasks, c.count)
	}
}

func TestSetUp(t *testing.T) {
	kinds, frameworks := map[string]int{}, map[string]bool{}
	for _, e := range setUp() {
		kinds[fmt.Sprint(e["event"])]++
		if e["event"] == "add_framework" {
			frameworks[e["framework"].(string)] = true
		}
	}
	if kinds["add_agent"] != 40 || len(frameworks) != 12 || kinds["set_weight"] != 2 || kinds["set_limit"] != 2 || kinds["reserve"] != 1 {
		t.Error(kinds, frameworks)
	}
	beats := map[string]int{}
	for round := 0; round < 16; round++ {
		for _, name := range beating(round, map[string]bool{"rack1-0": true}) {
			beats[name]++
		}
	}
	if beats["rack1-0"] != 0 || beats[isMute] != 1 || beats["rack1-1"] != 2 || len(beats) != 39 {
		t.Error(beats)
	}
}

func TestAddresses(t *testing.T) {
	taken, err := net.Listen("tcp", "127.0.0.1:0")
	if err != nil {
		t.Fatal(err)
	}
	defer taken.Close()
	for listen, want := range map[string]string{
		taken.Addr().String(): "is in use: give another one", "0.0.0.0:8450": "expected an address of the loopback", "8450": "expected an address of the loopback",
		":8450": "expected an address of the loopback", "127.0.0.1:x": `-listen "127.0.0.1:x"`,
	} {
		if err := Run(context.Background(), Options{Gateway: "false", Drf: "drf", Listen: listen, Out: io.Discard}); err == nil || !strings.Contains(err.Error(), want) {
			t.Errorf("%s: %v, want %q", listen, err, want)
		}
	}
}

// A service that does not start is reported with the last lines of its log.
func TestServiceThatDoesNotStart(t *testing.T) {
	err := Run(context.Background(), Options{Gateway: "false", Drf: "drf", Listen: "127.0.0.1:0", Out: io.Discard})
	if err == nil || !strings.Contains(err.Error(), "the service ended") {
		t.Error(err)
	}
}
