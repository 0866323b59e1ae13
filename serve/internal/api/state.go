// The rows of the allocator's state, as a whole or as the difference from an earlier state that the caller has. Outside the proof.

package api

import (
	"encoding/json"
	"net/http"
	"strconv"
	"strings"
	"sync"
	"time"
)

const (
	cachedStates = 3
	freshFor     = time.Second // for callers who ask for a difference
	cacheFor     = time.Minute // after its last use
)

// cachedState is a state that some caller has.
type cachedState struct {
	message int64
	at      time.Time
	rows    []string
}

// stateCache has the last states that were written, while somebody asks for differences.
type stateCache struct {
	mu     sync.Mutex
	states []cachedState // the newest last
	expiry *time.Timer
}

func (c *stateCache) find(message int64) ([]string, bool) {
	c.mu.Lock()
	defer c.mu.Unlock()
	for _, s := range c.states {
		if s.message == message {
			return s.rows, true
		}
	}
	return nil, false
}

// fresh returns a state that is new enough for several callers.
func (c *stateCache) fresh() (cachedState, bool) {
	c.mu.Lock()
	defer c.mu.Unlock()
	if len(c.states) == 0 || time.Since(c.states[len(c.states)-1].at) > freshFor {
		return cachedState{}, false
	}
	return c.states[len(c.states)-1], true
}

func (c *stateCache) add(s cachedState) {
	c.mu.Lock()
	defer c.mu.Unlock()
	if n := len(c.states); n > 0 && c.states[n-1].message >= s.message {
		return
	}
	c.states = append(c.states, s)
	if len(c.states) > cachedStates {
		c.states = append([]cachedState(nil), c.states[1:]...)
	}
	if c.expiry == nil {
		c.expiry = time.AfterFunc(cacheFor, c.clear)
	}
	c.expiry.Reset(cacheFor)
}

func (c *stateCache) clear() {
	c.mu.Lock()
	defer c.mu.Unlock()
	c.states = nil
}

// state writes all rows or, with ?since=MESSAGE, their difference from the rows at that message: [FROM,COUNT] for rows that stay, and new rows.
func (q *request) state() error {
	since := q.r.URL.Query().Get("since")
	if since == "" {
		s, err := q.readState()
		if err != nil {
			return err
		}
		q.writeState(s, "rows", s.rows)
		return nil
	}
	message, err := strconv.ParseInt(since, 10, 64)
	if err != nil {
		return refusal(http.StatusBadRequest, "since=%q: expected the number of a message", since)
	}
	old, is := q.server.states.find(message)
	s, isFresh := q.server.states.fresh()
	if !isFresh || s.message < message {
		if s, err = q.readState(); err != nil {
			return err
		}
		q.server.states.add(s)
	}
	if !is {
		q.writeState(s, "rows", s.rows)
		return nil
	}
	q.writeState(s, "edits", edits(old, s.rows))
	return nil
}

func (q *request) readState() (s cachedState, err error) {
	answer, err := q.ask("state", "", q.server.inTime)
	if err != nil {
		return s, err
	}
	file := ""
	if err := json.Unmarshal(answer.Text, &file); err != nil {
		return s, err
	}
	rows := strings.Split(file, "\n")
	return cachedState{answer.Message, time.Now(), rows[:len(rows)-2]}, nil // the last row has their number and digest
}

func (q *request) writeState(s cachedState, name string, items []string) {
	q.write("application/json", s.message, []byte(`{"message":`+formatInt(s.message)+`,"`+name+`":[`+strings.Join(items, ",")+"]}\n"))
}

// edits returns the difference between old and new rows: runs of old rows that stay, as [FROM,COUNT], and new rows.
func edits(old, new []string) (items []string) {
	index := make(map[string]int, len(old))
	for k, row := range old {
		index[row] = k
	}
	from, count := 0, 0
	flush := func() {
		if count > 0 {
			items = append(items, "["+strconv.Itoa(from)+","+strconv.Itoa(count)+"]")
		}
		count = 0
	}
	for _, row := range new {
		k, is := index[row]
		switch {
		case is && count > 0 && k == from+count:
			count++
		case is:
			flush()
			from, count = k, 1
		default:
			flush()
			items = append(items, row)
		}
	}
	flush()
	return items
}
