// Frameworks and agents of the event API beside Mesos'. Outside the proof.

package mesos

import (
	"io"
	"net/http"
	"strings"
	"testing"
	"time"
)

// send sends event lines, and returns the replies.
func (s *service) send(lines ...string) string {
	s.t.Helper()
	request, _ := http.NewRequest(http.MethodPost, s.urls[0]+"/drf/v1/events", strings.NewReader(strings.Join(lines, "\n")))
	request.Header.Set("Authorization", "Bearer "+s.token)
	answer, err := http.DefaultClient.Do(request)
	if err != nil {
		s.t.Fatal(err)
	}
	defer answer.Body.Close()
	text, _ := io.ReadAll(answer.Body)
	return string(text)
}

func TestNeighbours(t *testing.T) {
	s := newService(t, 1, 0)
	s.send(`{"event":"add_framework","framework":"site","roles":["web"]}`, `{"event":"suppress","framework":"site","role":"web"}`, `{"event":"add_agent","agent":"m1","total":"cpus:3"}`)
	c := s.subscribe("admin", s.token, frameworkInfo)
	c.none("OFFERS", 1500*time.Millisecond) // on a machine without a link
	if !strings.Contains(string(s.get(0, "/drf/v1/state")), `"row":"filter"`) {
		t.Error("the offer was not declined")
	}
	a := s.simulate("n1", scalar("cpus", "2"))
	a.next("REGISTERED")
	o := at(c.next("OFFERS"), "offers", "offers")
	if list, _ := o.([]interface{}); len(list) != 1 || at(list, 0, "hostname") != "host-n1" {
		t.Errorf("%v", o)
	}
	// An operator removes the framework: its stream ends, and its tasks with it.
	c.call(202, launchCall(at(o, 0, "id", "value").(string), "n1", taskInfo("t1", "n1", "1", commandField)))
	a.next("RUN")
	if reply := s.send(`{"event":"remove_framework","framework":"` + c.id + `"}`); !strings.Contains(reply, "ok") {
		t.Error(reply)
	}
	a.next("KILL")
	for range c.events { // until the stream ends
	}
	// An operator removes an agent: it registers again.
	s.send(`{"event":"remove_agent","agent":"n1"}`)
	if e := a.next("ERROR"); at(e, "error") != "the agent was removed" {
		t.Errorf("%v", e)
	}
	s.simulate("n1", scalar("cpus", "2")).next("REGISTERED")
}
