// Judging lines that are plain, as most are: the same as in rights.go, without maps. Outside the proof.

package auth

import (
	"bytes"

	"gateway/internal/jsontext"
	"gateway/internal/registry"
)

// judgePlain judges a line as Judge does, if it is plain, with texts and numbers alone, and the caller may send it.
func (c *Caller) judgePlain(line []byte) (judged Judged, is bool) {
	var room [8]jsontext.Field
	fields, is := jsontext.Fields(room[:0], line)
	if !is {
		return judged, false
	}
	var event, agent, framework []byte
	given := false
	for _, f := range fields {
		to := (*[]byte)(nil)
		switch string(f.Name) {
		case "at":
			given = true
			continue
		case "event":
			to = &event
		case "agent":
			to = &agent
		case "framework":
			to = &framework
		default:
			continue
		}
		if f.Value[0] != '"' {
			return judged, false
		}
		*to = f.Value[1 : len(f.Value)-1]
	}
	kind := registry.KindOf(event)
	judged = Judged{line, kind, isTimed(kind, given)}
	if c.Has("admin", "") {
		return judged, true
	}
	rule, isKnown := rules[kind]
	isRegistration := kind == "add_framework" || kind == "set_framework" // whose roles are judged too
	if !isKnown || isRegistration || !c.follows(rule, agent, framework) || given && !c.Has("clock", "") {
		return judged, false
	}
	judged.Line = inOrder(line, fields)
	return judged, true
}

// follows reports whether a rule lets a caller send an event about an agent or a framework.
func (c *Caller) follows(rule rule, agent, framework []byte) bool {
	if c.Has(rule.right, "") {
		return true
	}
	switch rule.named {
	case "agent":
		return c.Has("agent", string(agent))
	case "framework":
		return c.Has("framework", string(framework))
	}
	return false
}

// inOrder returns a line with its fields in the order of their names.
func inOrder(line []byte, fields []jsontext.Field) []byte {
	isSorted := true
	for k := 1; k < len(fields); k++ {
		for n := k; n > 0 && bytes.Compare(fields[n-1].Name, fields[n].Name) > 0; n-- {
			fields[n-1], fields[n], isSorted = fields[n], fields[n-1], false
		}
	}
	if isSorted {
		return line
	}
	text := append(make([]byte, 0, len(line)), '{')
	for k, f := range fields {
		if k > 0 {
			text = append(text, ',')
		}
		text = append(append(append(text, '"'), f.Name...), `":`...)
		text = append(text, f.Value...)
	}
	return append(text, '}')
}
