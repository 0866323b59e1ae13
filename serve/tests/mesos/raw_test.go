// Raw HTTP: a simulated agent, and frameworks that send JSON as in Mesos' documentation. Outside the proof.

package mesos

import (
	"bufio"
	"bytes"
	"encoding/base64"
	"encoding/json"
	"io"
	"net/http"
	"strings"
	"testing"
	"time"

	"gateway/internal/mesos/codec"
)

type object = map[string]interface{}

// at returns what is at a path of keys and indexes, or nil.
func at(value interface{}, path ...interface{}) interface{} {
	for _, key := range path {
		switch key := key.(type) {
		case string:
			in, _ := value.(object)
			value = in[key]
		case int:
			in, _ := value.([]interface{})
			if key >= len(in) {
				return nil
			}
			value = in[key]
		}
	}
	return value
}

// listener is a stream of records.
type listener struct {
	t      *testing.T
	events chan object
	header http.Header
	body   io.Closer
	missed []interface{} // offers that came while something else was waited for
}

func (s *service) request(path, principal, token, text string, headers ...string) *http.Response {
	s.t.Helper()
	request, err := http.NewRequest(http.MethodPost, s.urls[0]+path, strings.NewReader(text))
	if err != nil {
		s.t.Fatal(err)
	}
	request.SetBasicAuth(principal, token)
	request.Header.Set("Content-Type", codec.TypeJSON)
	for k := 0; k < len(headers); k += 2 {
		if request.Header.Set(headers[k], headers[k+1]); headers[k+1] == "" {
			request.Header.Del(headers[k])
		}
	}
	answer, err := http.DefaultClient.Do(request)
	if err != nil {
		s.t.Fatal(err)
	}
	return answer
}

func (s *service) listen(path, principal, token, text string) *listener {
	s.t.Helper()
	return s.follow(path, s.request(path, principal, token, text))
}

// listenAs listens with a header of its own.
func (s *service) listenAs(path, text, authorization string) *listener {
	s.t.Helper()
	return s.follow(path, s.request(path, "", "", text, "Authorization", authorization))
}

// follow reads the events of an answer.
func (s *service) follow(path string, answer *http.Response) *listener {
	s.t.Helper()
	if answer.StatusCode != http.StatusOK {
		text, _ := io.ReadAll(answer.Body)
		s.t.Fatalf("%s: %s", answer.Status, text)
	}
	l := &listener{t: s.t, events: make(chan object, 1000), header: answer.Header, body: answer.Body}
	s.t.Cleanup(func() { answer.Body.Close() })
	go func() {
		defer close(l.events)
		for in := bufio.NewReader(answer.Body); ; {
			text, err := codec.ReadRecord(in, 4<<20)
			if err != nil {
				return
			}
			event := object{}
			json.Unmarshal(text, &event)
			l.events <- event
		}
	}()
	return l
}

// next returns the next event of a type. Heartbeats and offers are skipped while others are waited for.
func (l *listener) next(kind string) object {
	l.t.Helper()
	for timeout := time.After(20 * time.Second); ; {
		select {
		case e, isOpen := <-l.events:
			switch {
			case !isOpen:
				l.t.Fatalf("the stream ended before %s", kind)
			case e["type"] == kind:
				return e
			case e["type"] == "OFFERS":
				some, _ := at(e, "offers", "offers").([]interface{})
				l.missed = append(l.missed, some...)
			case e["type"] == "RESCIND":
				l.forget(at(e, "rescind", "offer_id", "value"))
			case e["type"] != "HEARTBEAT":
				l.t.Fatalf("%v came before %s", e, kind)
			}
		case <-timeout:
			l.t.Fatalf("%s did not come", kind)
		}
	}
}

// forget forgets an offer that was rescinded.
func (l *listener) forget(id interface{}) {
	kept := l.missed[:0:0]
	for _, one := range l.missed {
		if at(one, "id", "value") != id {
			kept = append(kept, one)
		}
	}
	l.missed = kept
}

// none checks that no event of a type comes for a while.
func (l *listener) none(kind string, wait time.Duration) {
	l.t.Helper()
	for timeout := time.After(wait); ; {
		select {
		case e := <-l.events:
			if e["type"] == kind {
				l.t.Fatalf("%v came", e)
			}
		case <-timeout:
			return
		}
	}
}

// client is a subscribed framework.
type client struct {
	*listener
	s                *service
	principal, token string
	id, url          string
}

const frameworkInfo = `{"user":"root","name":"n","roles":["web"],"failover_timeout":100,"capabilities":[{"type":"MULTI_ROLE"},{"type":"NEWER_THAN_THIS"}],"offer_filters":{"web":{}}}`

func (s *service) subscribe(principal, token, info string) *client {
	s.t.Helper()
	call := `{"type":"SUBSCRIBE","subscribe":{"framework_info":` + info + `}}`
	if at(parse(info), "id") != nil {
		call = `{"type":"SUBSCRIBE","framework_id":` + jsonOf(at(parse(info), "id")) + `,"subscribe":{"framework_info":` + info + `}}`
	}
	c := &client{s.listen("/api/v1/scheduler", principal, token, call), s, principal, token, "", s.urls[0]}
	c.id, _ = at(c.next("SUBSCRIBED"), "subscribed", "framework_id", "value").(string)
	return c
}

func parse(text string) (value object) {
	json.Unmarshal([]byte(text), &value)
	return value
}

func jsonOf(value interface{}) string {
	text, _ := json.Marshal(value)
	return string(text)
}

// call sends a call and checks its status.
func (c *client) call(want int, text string) string {
	c.t.Helper()
	text = strings.Replace(text, "{", `{"framework_id":{"value":"`+c.id+`"},`, 1)
	answer := c.s.request("/api/v1/scheduler", c.principal, c.token, text, "Mesos-Stream-Id", c.header.Get("Mesos-Stream-Id"))
	defer answer.Body.Close()
	body, _ := io.ReadAll(answer.Body)
	if answer.StatusCode != want {
		c.t.Fatalf("%.300s: %s %s, want %d", text, answer.Status, body, want)
	}
	return string(body)
}

// offer waits for an offer, and returns its id.
func (c *client) offer() string {
	c.t.Helper()
	return at(c.next("OFFERS"), "offers", "offers", 0, "id", "value").(string)
}

// simulated is an agent that does only what a test says.
type simulated struct {
	*listener
	s  *service
	id string
}

func (s *service) simulate(id, resources string) *simulated {
	s.t.Helper()
	a := &simulated{s.listen("/drf/v1/agent-link", "admin", s.token, `{"type":"REGISTER","agent_id":{"value":"`+id+`"},"agent_info":{"hostname":"host-`+id+`","resources":[`+resources+`],"attributes":[{"name":"rack","type":"TEXT","text":{"value":"r1"}}]}}`), s, id}
	return a
}

func scalar(name, value string) string {
	return `{"name":"` + name + `","type":"SCALAR","scalar":{"value":` + value + `}}`
}

// report sends a status of a task that the agent got.
func (a *simulated) report(task interface{}, state string, uuid byte) {
	a.t.Helper()
	if status, text := a.tryReport(task, state, uuid); status != http.StatusAccepted {
		a.t.Fatalf("%s: %d %s", state, status, text)
	}
}

// tryReport sends a status, and returns the answer.
func (a *simulated) tryReport(task interface{}, state string, uuid byte) (int, string) {
	a.t.Helper()
	status := object{"task_id": at(task, "task_info", "task_id"), "state": state, "uuid": base64.StdEncoding.EncodeToString(bytes.Repeat([]byte{uuid}, 16))}
	text := jsonOf(object{"type": "UPDATE", "agent_id": object{"value": a.id}, "framework_id": at(task, "framework_id"), "launch": at(task, "launch"), "status": status})
	answer := a.s.request("/drf/v1/agent-link", "admin", a.s.token, text)
	defer answer.Body.Close()
	body, _ := io.ReadAll(answer.Body)
	return answer.StatusCode, string(body)
}

func launchCall(offer, agent, tasks string) string {
	return `{"type":"ACCEPT","accept":{"offer_ids":[{"value":"` + offer + `"}],"filters":{"refuse_seconds":0},"operations":[{"type":"LAUNCH","launch":{"task_infos":[` + tasks + `]}}]}}`
}

func taskInfo(id, agent, cpus, more string) string {
	return `{"name":"t","task_id":{"value":"` + id + `"},"agent_id":{"value":"` + agent + `"},"resources":[` + scalar("cpus", cpus) + `]` + more + `}`
}

const commandField = `,"command":{"value":"true"}`
