// The audit names Mesos' principals. Outside the proof.

package mesos

import (
	"encoding/json"
	"fmt"
	"net/http"
	"strings"
	"testing"
)

// audited returns who sent the messages of an audit's answer, the oldest first: the principal, or the cause, and the call.
func (s *service) audited(query string) (found []string) {
	s.t.Helper()
	request, err := http.NewRequest(http.MethodGet, s.urls[0]+"/drf/v1/audit?limit=1000&"+query, nil)
	if err != nil {
		s.t.Fatal(err)
	}
	request.Header.Set("Authorization", "Bearer "+s.token)
	answer, err := http.DefaultClient.Do(request)
	if err != nil {
		s.t.Fatal(err)
	}
	defer answer.Body.Close()
	var page struct {
		Records []struct{ Name, Address, Cause, Call string }
	}
	if err := json.NewDecoder(answer.Body).Decode(&page); err != nil || answer.StatusCode != http.StatusOK {
		s.t.Fatal(answer.Status, err)
	}
	for _, r := range page.Records {
		if (r.Address == "127.0.0.1") != (r.Name != "") || (r.Name == "") != (r.Cause != "") {
			s.t.Errorf("%+v", r)
		}
		found = append([]string{r.Name + r.Cause + " " + r.Call}, found...)
	}
	return found
}

func TestAudit(t *testing.T) {
	s := newService(t, 1, 0)
	mine := s.addToken("mine", "role:web")
	a := s.simulate("n1", scalar("cpus", "4"))
	a.next("REGISTERED")
	c := s.subscribe("mine", mine, frameworkInfo)
	c.call(202, launchCall(c.offer(), "n1", taskInfo("t", "n1", "1", commandField)))
	a.next("RUN")
	c.call(202, `{"type":"KILL","kill":{"task_id":{"value":"t"},"agent_id":{"value":"n1"}}}`)
	c.call(202, `{"type":"SUPPRESS"}`)
	c.call(202, `{"type":"TEARDOWN"}`)
	all := strings.Join(s.audited(""), "; ")
	for _, want := range []string{"admin agent", "mine subscribe", "mine accept", "mine kill", "mine "} { // an agent's token is that of the test
		if !strings.Contains(all+"; ", want+"; ") {
			t.Errorf("%q is not in %q", want, all)
		}
	}
	for event, want := range map[string]string{"add_agent": "[admin agent]", "add_framework": "[mine subscribe]", "accept": "[mine accept]", "suppress": "[mine ]", "remove_framework": "[mine ]"} {
		if found := s.audited("event=" + event); fmt.Sprint(found) != want {
			t.Errorf("%s: %v, want %s", event, found, want)
		}
	}
	if text := s.audited("cause=cycle"); len(text) == 0 || text[0] != "cycle " {
		t.Error(text)
	}
}
