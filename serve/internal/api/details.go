// What the service knows beyond the allocator: which agents are silent, and the frameworks, agents and tasks of Mesos. Outside the proof.

package api

import (
	"context"
	"crypto/rand"
	"encoding/hex"
	"encoding/json"
	"strings"
	"sync"
	"time"
)

// Detail is a row about an agent, a framework or a task. Fields that are empty are left out.
type Detail struct {
	Row       string `json:"row"` // silent, mesos_agent, mesos_framework or mesos_task
	Agent     string `json:"agent,omitempty"`
	Framework string `json:"framework,omitempty"` // the allocator's name
	ID        string `json:"id,omitempty"`
	Name      string `json:"name,omitempty"`
	Task      string `json:"task,omitempty"`
	State     string `json:"state,omitempty"`
	Reason    string `json:"reason,omitempty"`
	Principal string `json:"principal,omitempty"`
	Host      string `json:"host,omitempty"`
	Port      int64  `json:"port,omitempty"`     // at which an agent answers operators
	Executor  string `json:"executor,omitempty"` // of a task, in whose sandbox it runs
	Since     int64  `json:"since,omitempty"`    // milliseconds
	Connected bool   `json:"connected,omitempty"`
	Killing   bool   `json:"killing,omitempty"`
	// Holds are the allocator's tasks that have the task's resources.
	Holds []string `json:"holds,omitempty"`
}

// DetailSource returns rows, in an order that does not change while they exist.
type DetailSource func(ctx context.Context) ([]Detail, error)

// detailState is rows that some caller has, under a version that no other gateway uses.
type detailState struct {
	version string
	at      time.Time
	rows    []string
}

// detailCache has the last rows that were written, so that callers get differences.
type detailCache struct {
	mu     sync.Mutex
	states []detailState // the newest last
}

// find returns the rows of a version.
func (c *detailCache) find(version string) ([]string, bool) {
	c.mu.Lock()
	defer c.mu.Unlock()
	for _, s := range c.states {
		if s.version == version {
			return s.rows, true
		}
	}
	return nil, false
}

// fresh returns rows that are new enough for several callers.
func (c *detailCache) fresh() (detailState, bool) {
	c.mu.Lock()
	defer c.mu.Unlock()
	if len(c.states) == 0 || time.Since(c.states[len(c.states)-1].at) > freshFor {
		return detailState{}, false
	}
	return c.states[len(c.states)-1], true
}

// add adds rows under a new version, unless they are those of the last one.
func (c *detailCache) add(rows []string) detailState {
	var random [8]byte
	rand.Read(random[:])
	c.mu.Lock()
	defer c.mu.Unlock()
	if n := len(c.states); n > 0 && strings.Join(c.states[n-1].rows, "\n") == strings.Join(rows, "\n") {
		c.states[n-1].at = time.Now()
		return c.states[n-1]
	}
	s := detailState{hex.EncodeToString(random[:]), time.Now(), rows}
	c.states = append(c.states, s)
	if len(c.states) > cachedStates {
		c.states = append([]detailState(nil), c.states[1:]...)
	}
	return s
}

// details writes all rows or, with ?since=VERSION, their difference from the rows of that version, as state does.
func (q *request) details() error {
	s, isFresh := q.server.detailed.fresh()
	if !isFresh {
		ctx, cancel := context.WithTimeout(q.r.Context(), 10*time.Second)
		defer cancel()
		rows := []string{}
		for _, source := range q.Details {
			found, err := source(ctx)
			if err != nil {
				return err
			}
			for _, one := range found {
				text, err := json.Marshal(one)
				if err != nil {
					return err
				}
				rows = append(rows, string(text))
			}
		}
		s = q.server.detailed.add(rows)
	}
	name, items := "rows", s.rows
	if old, is := q.server.detailed.find(q.r.URL.Query().Get("since")); is {
		name, items = "edits", edits(old, s.rows)
	}
	q.write("application/json", q.Registry.Info().Applied, []byte(`{"version":"`+s.version+`","`+name+`":[`+strings.Join(items, ",")+"]}\n"))
	return nil
}
