// Questions about the state, which a second child of the allocator answers. Outside the proof.

package api

import (
	"context"
	"encoding/json"
	"net/http"
	"strconv"
	"time"

	"gateway/internal/allocator"
)

func (q *request) ask(what, argument string, within time.Duration) (allocator.Answer, error) {
	ctx, cancel := context.WithTimeout(q.r.Context(), within)
	defer cancel()
	return q.Questions.Ask(ctx, what, argument)
}

// report writes the shares.
func (q *request) report() error {
	answer, err := q.ask("report", "", q.server.inTime)
	if err != nil {
		return err
	}
	q.write("application/json", answer.Message, append(answer.Text, '\n'))
	return nil
}

// explain writes why each client gets nothing, now or at a time.
func (q *request) explain() error {
	argument := ""
	if at := q.r.URL.Query().Get("at"); at != "" {
		number, err := strconv.ParseUint(at, 10, 62)
		if err != nil {
			return refusal(http.StatusBadRequest, "at=%q: expected milliseconds, at most 2^62", at)
		}
		argument = strconv.FormatUint(number, 10)
	}
	answer, err := q.ask("explain", argument, q.server.inTime)
	if err != nil {
		return err
	}
	var lines []json.RawMessage
	if err := json.Unmarshal(answer.Text, &lines); err != nil {
		return err
	}
	var text []byte
	for _, line := range lines {
		text = append(append(text, line...), '\n')
	}
	q.write("application/x-ndjson", answer.Message, text)
	return nil
}

// readMetrics writes the figures. Those that come from the allocator stay as they were if it does not answer.
func (q *request) readMetrics() error {
	m := q.server.metrics
	if q.Service == nil {
		m.ServeHTTP(q.w, q.r)
		return nil
	}
	if answer, err := q.ask("report", "", 8*time.Second); err == nil {
		m.SetShares(answer.Text)
	}
	if answer, err := q.ask("tables", "", 8*time.Second); err == nil {
		m.SetTables(answer.Text)
	}
	info := q.Registry.Info()
	m.SetRows("offers", info.Offers)
	m.SetRows("tasks", info.Tasks)
	m.ServeHTTP(q.w, q.r)
	return nil
}
