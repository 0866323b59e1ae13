// The calls in Mesos' documentation of the scheduler API, sent by curl: the JSON as it is written there, with the ids of this service. Outside the
// proof.

package mesos

import (
	"bufio"
	"encoding/json"
	"fmt"
	"io"
	"os/exec"
	"strings"
	"testing"

	"gateway/internal/mesos/codec"
)

// curl sends a call, and returns the status and the answer.
func (c *client) curl(text string) string {
	c.t.Helper()
	text = strings.ReplaceAll(text, "12220-3440-12532-2345", c.id)
	command := exec.Command("curl", "-sS", "-w", "%{http_code}", "-u", c.principal+":"+c.token, "-H", "Content-Type: application/json", "-H", "Mesos-Stream-Id: "+c.header.Get("Mesos-Stream-Id"),
		"--data-binary", "@-", c.s.urls[0]+"/api/v1/scheduler")
	command.Stdin = strings.NewReader(text)
	answer, err := command.CombinedOutput()
	if err != nil {
		c.t.Fatalf("%v: %s", err, answer)
	}
	return string(answer)
}

// curlSubscribe subscribes by curl, and returns the framework with its stream.
func (s *service) curlSubscribe(text string) *client {
	s.t.Helper()
	command := exec.Command("curl", "-sS", "-N", "-i", "-u", "admin:"+s.token, "-H", "Content-Type: application/json", "-H", "Accept: application/json", "--data-binary", "@-", s.urls[0]+"/api/v1/scheduler")
	command.Stdin = strings.NewReader(text)
	out, err := command.StdoutPipe()
	if err == nil {
		err = command.Start()
	}
	if err != nil {
		s.t.Fatal(err)
	}
	s.t.Cleanup(func() { command.Process.Kill(); command.Wait() })
	in := bufio.NewReader(out)
	l := &listener{t: s.t, events: make(chan object, 1000), header: map[string][]string{}, body: io.NopCloser(out)}
	for {
		line, err := in.ReadString('\n')
		if err != nil {
			s.t.Fatalf("%q: %v", line, err)
		}
		if line = strings.TrimSpace(line); line == "" {
			break
		}
		if name, value, is := strings.Cut(line, ": "); is {
			l.header.Set(name, value)
		} else if !strings.HasPrefix(line, "HTTP/1.1 200 ") {
			s.t.Fatal(line)
		}
	}
	go func() {
		defer close(l.events)
		for {
			text, err := codec.ReadRecord(in, 4<<20)
			if err != nil {
				return
			}
			event := object{}
			json.Unmarshal(text, &event)
			l.events <- event
		}
	}()
	c := &client{listener: l, s: s, principal: "admin", token: s.token}
	c.id, _ = at(c.next("SUBSCRIBED"), "subscribed", "framework_id", "value").(string)
	return c
}

func TestDocumentedCalls(t *testing.T) {
	if _, err := exec.LookPath("curl"); err != nil {
		t.Skip("curl is not installed: apt-get install curl")
	}
	s := newService(t, 1, 0)
	a := s.simulate("12220-3440-12532-S1233", scalar("cpus", "4")+","+scalar("mem", "1024"))
	a.next("REGISTERED")
	c := s.curlSubscribe(`{
   "type"       : "SUBSCRIBE",
   "subscribe"  : {
      "framework_info"  : {
        "user" :  "foo",
        "name" :  "Example HTTP Framework",
        "roles": ["test"],
        "capabilities" : [{"type": "MULTI_ROLE"}]
      }
   }
}`)
	if kind := c.header.Get("Content-Type"); kind != "application/json" || c.header.Get("Transfer-Encoding") != "chunked" {
		t.Errorf("%v", c.header)
	}
	offer := at(c.next("OFFERS"), "offers", "offers", 0)
	if at(offer, "allocation_info", "role") != "test" || at(offer, "agent_id", "value") != "12220-3440-12532-S1233" || at(offer, "framework_id", "value") != c.id ||
		at(offer, "resources", 0, "allocation_info", "role") != "test" || at(offer, "resources", 0, "role") != "*" {
		t.Errorf("%v", offer)
	}
	expect := func(want, text string) {
		t.Helper()
		if got := c.curl(text); got != want {
			t.Errorf("%s: %s, want %s", text, got, want)
		}
	}
	expect("202", fmt.Sprintf(`{
  "framework_id"    : {"value" : "12220-3440-12532-2345"},
  "type"            : "DECLINE",
  "decline"         : {
    "offer_ids" : [
      {"value" : "12220-3440-12532-O12"},
      {"value" : "%s"}
    ],
    "filters"   : {"refuse_seconds" : 5.0}
  }
}`, at(offer, "id", "value")))
	expect("202", `{
  "framework_id" : {"value" : "12220-3440-12532-2345"},
  "type"         : "SUPPRESS",
  "suppress"     : {"roles" : ["test"]}
}`)
	expect("202", `{
  "framework_id"    : {"value" : "12220-3440-12532-2345"},
  "type"            : "REVIVE",
  "revive"          : {"roles" : ["test"]}
}`)
	expect("202", fmt.Sprintf(`{
  "framework_id"   : {"value" : "12220-3440-12532-2345"},
  "type"           : "ACCEPT",
  "accept"         : {
    "offer_ids"    : [{"value" : "%s"}],
    "operations"   : [
      {
        "type"         : "LAUNCH",
        "launch"       : {
          "task_infos" : [
            {
              "name"        : "My Task",
              "task_id"     : {"value" : "12220-3440-12532-my-task"},
              "agent_id"    : {"value" : "12220-3440-12532-S1233"},
              "command"     : {"shell" : true, "value" : "sleep 1000"},
              "resources"   : [
                {
                  "allocation_info": {"role": "test"},
                  "name"  : "cpus",
                  "role"  : "*",
                  "type"  : "SCALAR",
                  "scalar": {"value": 1.0}
                },
                {
                  "allocation_info": {"role": "test"},
                  "name"  : "mem",
                  "role"  : "*",
                  "type"  : "SCALAR",
                  "scalar": {"value": 128.0}
                }
              ]
            }
          ]
        }
      }
    ],
    "filters"      : {"refuse_seconds" : 5.0}
  }
}`, c.offer()))
	run := at(a.next("RUN"), "tasks", 0)
	a.report(run, "TASK_RUNNING", 7)
	status := c.status()
	expect("202", fmt.Sprintf(`{
  "framework_id"    : {"value" : "12220-3440-12532-2345"},
  "type"            : "ACKNOWLEDGE",
  "acknowledge"     : {
    "agent_id"  :  {"value" : "12220-3440-12532-S1233"},
    "task_id"   :  {"value" : "12220-3440-12532-my-task"},
    "uuid"      :  "%s"
  }
}`, at(status, "uuid")))
	expect("202", `{
  "framework_id"   : {"value" : "12220-3440-12532-2345"},
  "type"           : "RECONCILE",
  "reconcile"      : {
    "tasks"     : [
                   { "task_id"  : {"value" : "312325"},
                     "agent_id" : {"value" : "123535"}
                   }
                  ]
  }
}`)
	if status := c.status(); at(status, "task_id", "value") != "312325" || at(status, "state") != "TASK_LOST" || at(status, "reason") != "REASON_RECONCILIATION" {
		t.Errorf("%v", status)
	}
	expect("202", `{
  "framework_id"    : {"value" : "12220-3440-12532-2345"},
  "type"            : "MESSAGE",
  "message"         : {
    "agent_id"       : {"value" : "12220-3440-12532-S1233"},
    "executor_id"    : {"value" : "my-framework-executor"},
    "data"           : "adaf838jahd748jnaldf"
  }
}`)
	if m := a.next("MESSAGE"); at(m, "message", "data") != "adaf838jahd748jnaldf" {
		t.Errorf("%v", m)
	}
	expect("202", `{
  "framework_id"    : {"value" : "12220-3440-12532-2345"},
  "type"            : "REQUEST",
  "request"         : {"requests" : [{"agent_id" : {"value" : "12220-3440-12532-S1233"}, "resources" : []}]}
}`)
	expect("202", `{
  "framework_id"    : {"value" : "12220-3440-12532-2345"},
  "type"            : "KILL",
  "kill"            : {
    "task_id"   :  {"value" : "12220-3440-12532-my-task"},
    "agent_id"  :  {"value" : "12220-3440-12532-S1233"}
  }
}`)
	a.next("KILL")
	a.report(run, "TASK_KILLED", 8)
	if status := c.status(); at(status, "state") != "TASK_KILLED" {
		t.Errorf("%v", status)
	}
	expect("202", `{
  "framework_id"    : {"value" : "12220-3440-12532-2345"},
  "type"            : "SHUTDOWN",
  "shutdown"        : {
    "executor_id"   :  {"value" : "123450-2340-1232-my-executor"},
    "agent_id"      :  {"value" : "123450-2340-1232-S1"}
  }
}`)
	expect("202", `{
  "framework_id"    : {"value" : "12220-3440-12532-2345"},
  "type"            : "TEARDOWN"
}`)
	for range c.events { // until the stream ends
	}
	expect("Framework cannot be found\n400", `{"framework_id": {"value" : "12220-3440-12532-2345"}, "type": "REVIVE"}`)
	s.waitFree(0)
}
