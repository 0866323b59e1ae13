// Rights: which calls and which lines a caller may send. Outside the proof.

package auth

import (
	"bytes"
	"encoding/json"
	"errors"
	"fmt"
	"strings"

	"gateway/internal/registry"
)

// Has reports whether a caller has a right, for a name where the right has one.
func (c *Caller) Has(right, name string) bool {
	for _, r := range c.Rights {
		kind, of, named := strings.Cut(r, ":")
		switch {
		case r == "admin", kind == right && !named && name == "":
			return true
		case kind != right || name == "":
		case of == name, right == "role" && strings.HasPrefix(name, of+"/"),
			right == "agent" && strings.HasSuffix(of, "*") && strings.HasPrefix(name, of[:len(of)-1]):
			return true
		}
	}
	return false
}

// MaySend reports whether a caller has a right to send any lines.
func (c *Caller) MaySend() bool {
	for _, r := range c.Rights {
		if kind, _, _ := strings.Cut(r, ":"); kind != "read" && kind != "user" {
			return true
		}
	}
	return false
}

// rule is the rights of which one is needed to send an event: the right to the agent or framework that it names, or another right.
type rule struct{ named, right string }

var rules = map[string]rule{
	"add_agent": {"agent", "operate"}, "set_agent": {"agent", "operate"}, "remove_agent": {"agent", "operate"},
	"activate_agent": {"agent", "operate"}, "deactivate_agent": {"agent", "operate"},
	"add_framework": {"framework", "admin"}, "set_framework": {"framework", "admin"}, "remove_framework": {"framework", "operate"},
	"suppress": {"framework", "admin"}, "revive": {"framework", "admin"},
	"accept": {"framework", "admin"}, "decline": {"framework", "admin"}, "finish": {"framework", "admin"},
	"rescind": {"", "operate"}, "reserve": {"", "operate"}, "unreserve": {"", "operate"}, "set_weight": {"", "operate"}, "set_limit": {"", "operate"},
	"cycle": {"", "clock"}, "report": {"", "admin"},
}

// IsEvent reports whether a name is that of an event.
func IsEvent(kind string) bool {
	_, is := rules[kind]
	return is
}

// needed names the rights that a caller needs to send an event.
func needed(kind string, object map[string]json.RawMessage) string {
	rule := rules[kind]
	if rule.named == "" {
		return rule.right
	}
	right := rule.named + ":" + registry.Text(object, rule.named)
	if kind == "add_framework" || kind == "set_framework" {
		right += " and role:ROLE for each role"
	}
	return right + ", or " + rule.right
}

// Judged is a line as the allocator is to read it.
type Judged struct {
	Line  []byte
	Kind  string // of its event
	Timed bool   // it gets the timestamp of its message
}

// Judge returns the line that the allocator is to read, or why the caller has no right to send it. The lines of a caller that has the right to send
// everything are not changed, even if they are not valid.
func (c *Caller) Judge(line []byte) (Judged, error) {
	if judged, is := c.judgePlain(line); is {
		return judged, nil
	}
	object := registry.Fields(line)
	kind := registry.Text(object, "event")
	_, given := object["at"]
	judged := Judged{line, kind, isTimed(kind, given)}
	switch {
	case c.Has("admin", ""):
		return judged, nil
	case object == nil:
		return judged, errors.New("the line is not a JSON object")
	case !IsEvent(kind):
		return judged, fmt.Errorf("unknown event %q", kind)
	case !c.mayDo(kind, object):
		return judged, fmt.Errorf("the token %q may not send this %q: it needs the right %s", c.Name, kind, needed(kind, object))
	case given && !c.Has("clock", ""):
		return judged, errors.New("only a token with the right clock may set `at`: leave it out")
	}
	var err error
	judged.Line, err = encode(object)
	return judged, err
}

// isTimed reports whether an event gets a timestamp, unless it has one.
func isTimed(kind string, given bool) bool {
	return !given && (kind == "cycle" || kind == "accept" || kind == "decline")
}

// encode writes JSON without replacing characters such as < by escapes.
func encode(value interface{}) ([]byte, error) {
	var text bytes.Buffer
	writer := json.NewEncoder(&text)
	writer.SetEscapeHTML(false)
	if err := writer.Encode(value); err != nil {
		return nil, err
	}
	return bytes.TrimSuffix(text.Bytes(), []byte("\n")), nil
}

// mayDo judges an event, and writes the fields that it examined into the object again.
func (c *Caller) mayDo(kind string, object map[string]json.RawMessage) bool {
	for _, key := range []string{"event", "agent", "framework"} {
		if object[key] != nil {
			object[key], _ = encode(registry.Text(object, key))
		}
	}
	if kind == "add_framework" || kind == "set_framework" {
		var roles []string
		if json.Unmarshal(object["roles"], &roles) != nil {
			return false
		}
		object["roles"], _ = encode(roles)
		for _, role := range roles {
			if !c.Has("role", role) {
				return false
			}
		}
	}
	rule, is := rules[kind]
	return is && (rule.named != "" && c.Has(rule.named, registry.Text(object, rule.named)) || c.Has(rule.right, ""))
}
