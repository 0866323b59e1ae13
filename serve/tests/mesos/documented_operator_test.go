// The calls in Mesos' documentation of the operator API and of the classic endpoints, sent by curl as they are written there, with the ids of this
// service. Outside the proof.

package mesos

import (
	"os/exec"
	"strings"
	"testing"
)

// curl runs curl with these arguments, in which ADDRESS stands for a gateway, and returns the answer followed by its status.
func (s *service) curl(arguments ...string) string {
	s.t.Helper()
	for k := range arguments {
		arguments[k] = strings.ReplaceAll(arguments[k], "ADDRESS", strings.TrimPrefix(s.urls[0], "http://"))
	}
	answer, err := exec.Command("curl", append([]string{"-sS", "-w", " %{http_code}", "-u", "admin:" + s.token}, arguments...)...).CombinedOutput()
	if err != nil {
		s.t.Fatalf("%v: %v: %s", arguments, err, answer)
	}
	return string(answer)
}

func TestDocumentedOperatorCalls(t *testing.T) {
	if _, err := exec.LookPath("curl"); err != nil {
		t.Skip("curl is not installed: apt-get install curl")
	}
	s := newService(t, 1, 0)
	const agent = "1557de7d-547c-48db-b5d3-6bef9c9640ef-S0"
	a := s.simulate(agent, scalar("cpus", "4")+","+scalar("mem", "4096"))
	a.next("REGISTERED")
	post := func(text string) string {
		return s.curl("-X", "POST", "-H", "Content-Type: application/json", "-H", "Accept: application/json", "-d", text, "ADDRESS/api/v1")
	}
	for _, c := range []struct{ call, want string }{
		{`{
  "type": "GET_HEALTH"
}`, `{"type":"GET_HEALTH","get_health":{"healthy":true}} 200`},
		{`{
  "type": "GET_VERSION"
}`, `{"type":"GET_VERSION","get_version":{"version_info":{"version":"1.11.0"}}} 200`},
		{`{
  "type": "GET_METRICS",
  "get_metrics": {
    "timeout": {
      "nanoseconds": 5000000000
    }
  }
}`, `{"name":"master/slaves_active","value":1}`},
		{`{
  "type": "UPDATE_WEIGHTS",
  "update_weights": {
    "weight_infos": [
      {
        "role": "role",
        "weight": 4.0
      }
    ]
  }
}`, ` 200`},
		{`{
  "type": "GET_WEIGHTS"
}`, `{"type":"GET_WEIGHTS","get_weights":{"weight_infos":[{"weight":4,"role":"role"}]}} 200`},
		{`{
  "type": "RESERVE_RESOURCES",
  "reserve_resources": {
    "agent_id": {
      "value": "` + agent + `"
    },
    "resources": [
      {
        "type": "SCALAR",
        "name": "cpus",
        "reservation": {
          "principal": "admin"
        },
        "role": "role",
        "scalar": {
          "value": 1.0
        }
      },
      {
        "type": "SCALAR",
        "name": "mem",
        "reservation": {
          "principal": "admin"
        },
        "role": "role",
        "scalar": {
          "value": 512.0
        }
      }
    ]
  }
}`, ` 202`},
		{`{
  "type": "UNRESERVE_RESOURCES",
  "unreserve_resources": {
    "agent_id": {
      "value": "` + agent + `"
    },
    "resources": [
      {
        "type": "SCALAR",
        "name": "cpus",
        "reservation": {
          "principal": "admin"
        },
        "role": "role",
        "scalar": {
          "value": 1.0
        }
      }
    ]
  }
}`, ` 202`},
		{`{
  "type": "UPDATE_QUOTA",
  "update_quota": {
    "force": false,
    "quota_configs": [
      {
        "role": "dev",
        "limits": {
          "cpus": { "value": 20 },
          "mem": { "value": 4096 },
          "disk": { "value": 6144 }
        }
      }
    ]
  }
}`, ` 200`},
		{`{
  "type": "GET_QUOTA"
}`, `"configs":[{"role":"dev","limits":{"cpus":{"value":20},"disk":{"value":6144},"mem":{"value":4096}}}]}}} 200`},
		{`{
  "type": "REMOVE_QUOTA",
  "remove_quota": {
    "role": "dev"
  }
}`, ` 200`},
		{`{
  "type": "DRAIN_AGENT",
  "drain_agent": {
    "agent_id": {
      "value": "` + agent + `"
    },
    "max_grace_period": {
      "nanoseconds": 600000000000
    },
    "mark_gone": false
  }
}`, ` 200`},
		{`{
  "type": "GET_AGENTS"
}`, `"deactivated":true`},
		{`{
  "type": "REACTIVATE_AGENT",
  "reactivate_agent": {
    "agent_id": {
      "value": "` + agent + `"
    }
  }
}`, ` 200`},
		{`{
  "type": "DEACTIVATE_AGENT",
  "deactivate_agent": {
    "agent_id": {
      "value": "` + agent + `"
    }
  }
}`, ` 200`},
		{`{
  "type": "MARK_AGENT_GONE",
  "mark_agent_gone": {
    "agent_id": {
      "value": "` + agent + `"
    }
  }
}`, ` 200`},
		{`{
  "type": "GET_STATE"
}`, `{"type":"GET_STATE","get_state":{"get_tasks":{},"get_executors":{},"get_frameworks":{},"get_agents":{}}} 200`},
	} {
		if got := post(c.call); !strings.Contains(got, c.want) {
			t.Errorf("%s: %s, want %s", c.call, got, c.want)
		}
	}
}

func TestDocumentedEndpoints(t *testing.T) {
	if _, err := exec.LookPath("curl"); err != nil {
		t.Skip("curl is not installed: apt-get install curl")
	}
	s := newService(t, 1, 0)
	a := s.simulate("n1", scalar("cpus", "8")+","+scalar("mem", "4096"))
	a.next("REGISTERED")
	c := s.subscribe("admin", s.token, `{"user":"root","name":"n","roles":["web"],"capabilities":[{"type":"MULTI_ROLE"}]}`)
	resources := `resources=[{
    "name": "cpus",
    "type": "SCALAR",
    "scalar": { "value": 8 },
    "role": "ads",
    "reservation": {
      "principal": "admin"
    }
  },
  {
    "name": "mem",
    "type": "SCALAR",
    "scalar": { "value": 4096 },
    "role": "ads",
    "reservation": {
      "principal": "admin"
    }
  }]`
	for _, one := range []struct {
		arguments []string
		want      string
	}{
		{[]string{"-d", "slaveId=n1", "-d", resources, "-X", "POST", "http://ADDRESS/master/reserve"}, " 202"},
		{[]string{"-d", "slaveId=n1", "-d", resources, "-X", "POST", "http://ADDRESS/master/unreserve"}, " 202"},
		{[]string{"-d", `[
  {
    "role": "role1",
    "weight": 2.0
  },
  {
    "role": "role2",
    "weight": 3.5
  }
]`, "-X", "PUT", "http://ADDRESS/weights"}, " 200"},
		{[]string{"http://ADDRESS/weights"}, "[{\"weight\":2,\"role\":\"role1\"},{\"weight\":3.5,\"role\":\"role2\"}]\n 200"},
		{[]string{"http://ADDRESS/master/tasks?limit=10&offset=0&order=asc"}, "{\"tasks\":[]}\n 200"},
		{[]string{"http://ADDRESS/metrics/snapshot"}, `"master/cpus_total":8`},
		{[]string{"-XPOST", "http://ADDRESS/master/teardown", "-d", "frameworkId=" + c.id}, " 200"},
		{[]string{"-i", "http://ADDRESS/redirect"}, "307 Temporary Redirect"},
	} {
		if got := s.curl(one.arguments...); !strings.Contains(got, one.want) {
			t.Errorf("%v: %s, want %s", one.arguments, got, one.want)
		}
	}
	s.waitFree(0)
}
