// The records of the audit, which say who sent each message. Outside the proof.

package api

import (
	"encoding/json"
	"net/http"
	"net/url"
	"strconv"
	"time"

	"gateway/internal/audit"
)

const (
	auditPage    = 100 // records, unless a caller asks for another number
	maxAuditPage = 1_000
)

// auditFields are the fields of event lines that can be asked for.
var auditFields = []string{"agent", "framework", "role", "task"}

func (q *request) audit() error {
	f, err := auditFilter(q.r.URL.Query())
	if err != nil {
		return err
	}
	page, err := audit.Search(q.r.Context(), q.auditBlocks(), f)
	if err != nil {
		return err
	}
	q.w.Header().Set("Content-Type", "application/json")
	limitTime(q.r, q.server.inTime)
	out := json.NewEncoder(q.w)
	out.SetEscapeHTML(false)
	return out.Encode(page)
}

// settings writes the cluster's current settings and who made them, the newest first.
func (q *request) settings() error {
	query := q.r.URL.Query()
	for name := range query {
		if !isSettingParameter[name] {
			return refusal(http.StatusBadRequest, "%q: expected event, agent, framework, role or limit", name)
		}
	}
	f, err := auditFilter(query)
	if err != nil {
		return err
	}
	q.w.Header().Set("Content-Type", "application/json")
	out := json.NewEncoder(q.w)
	out.SetEscapeHTML(false)
	return out.Encode(map[string]interface{}{"settings": q.Journal.Settings.Find(f.Event, f.Fields, f.Limit)})
}

// auditBlocks returns the records that this gateway has: first those that only its archive has, and then those beside the journal.
func (q *request) auditBlocks() []audit.Block {
	live := q.Journal.Audit.Blocks(q.Journal)
	if q.Archive == nil {
		return live
	}
	before := int64(1) << 62
	if len(live) > 0 {
		before = live[0].First
	}
	return append(q.Archive.Blocks(before), live...)
}

// auditFilter reads which records a caller asks for.
func auditFilter(query url.Values) (f audit.Filter, err error) {
	f = audit.Filter{Name: query.Get("name"), Address: query.Get("address"), Cause: query.Get("cause"), Event: query.Get("event"), Limit: auditPage, Fields: map[string]string{}}
	for _, field := range auditFields {
		if value := query.Get(field); value != "" {
			f.Fields[field] = value
		}
	}
	for name := range query {
		if !isAuditParameter[name] {
			return f, refusal(http.StatusBadRequest, "%q: expected from, to, name, address, cause, event, agent, framework, role, task, answer, limit or before", name)
		}
	}
	if f.From, err = timeOf(query, "from"); err != nil {
		return f, err
	}
	if f.To, err = timeOf(query, "to"); err != nil {
		return f, err
	}
	switch answer := query.Get("answer"); answer {
	case "", "any":
	case "refused":
		f.Refused = true
	default:
		return f, refusal(http.StatusBadRequest, "answer=%q: expected any or refused", answer)
	}
	if text := query.Get("limit"); text != "" {
		if f.Limit, err = strconv.Atoi(text); err != nil || f.Limit < 1 || f.Limit > maxAuditPage {
			return f, refusal(http.StatusBadRequest, "limit=%q: expected 1 to %d", text, maxAuditPage)
		}
	}
	if text := query.Get("before"); text != "" {
		if f.Before, err = strconv.ParseInt(text, 10, 64); err != nil || f.Before < 1 {
			return f, refusal(http.StatusBadRequest, "before=%q: expected the number of a message", text)
		}
	}
	return f, nil
}

var isAuditParameter = map[string]bool{"from": true, "to": true, "name": true, "address": true, "cause": true, "event": true, "agent": true, "framework": true,
	"role": true, "task": true, "answer": true, "limit": true, "before": true}

var isSettingParameter = map[string]bool{"event": true, "agent": true, "framework": true, "role": true, "limit": true}

// timeOf reads a parameter that is a number of milliseconds, a time, or a day in UTC, and returns milliseconds, or 0 where there is none.
func timeOf(query url.Values, name string) (int64, error) {
	text := query.Get(name)
	if text == "" {
		return 0, nil
	}
	if at, err := strconv.ParseInt(text, 10, 64); err == nil && at >= 0 {
		return at, nil
	}
	for _, form := range []string{time.RFC3339, "2006-01-02"} {
		if at, err := time.Parse(form, text); err == nil {
			return at.UnixMilli(), nil
		}
	}
	return 0, refusal(http.StatusBadRequest, "%s=%q: expected milliseconds, a time such as 2027-01-31T12:00:00Z, or a day such as 2027-01-31", name, text)
}
