// What a gateway reports of itself. Outside the proof.

package api

import (
	"encoding/json"

	"gateway/internal/archive"
	"gateway/internal/members"
	"gateway/internal/oplog"
)

// Status is the answer to /status.
type Status struct {
	Name          string `json:"name"`
	Version       string `json:"version"`
	Started       int64  `json:"started"` // in milliseconds
	Ready         bool   `json:"ready"`
	Fault         string `json:"fault"`
	ClockFault    string `json:"clock_fault"`
	ClockWarning  string `json:"clock_warning"`
	ClockOffsetMS int64  `json:"clock_offset_ms"`
	Lag           int64  `json:"lag"`
	oplog.Position
	At       int64 `json:"at"`
	Epoch    int   `json:"epoch"`
	Offers   int   `json:"offers"`
	Snapshot int   `json:"state"`
	KeptKeys int   `json:"kept_keys"`
	Journal  struct {
		From   int64  `json:"from"`
		End    int64  `json:"end"`
		Sha256 string `json:"sha256"`
	} `json:"journal"`
	Allocator struct {
		Sha256    string `json:"sha256"` // of its program
		Pid       int    `json:"pid"`
		Restarts  int    `json:"restarts"`
		Questions int    `json:"questions_pid"`
	} `json:"allocator"`
	Archive *archive.Status `json:"archive,omitempty"` // where there is one
	Etcd    struct {
		Used  int64 `json:"used"`
		Quota int64 `json:"quota"`
	} `json:"etcd"`
}

// Status returns what a service reports of itself.
func (service *Service) Status() (s Status) {
	a, info := service.Allocator.Status(), service.Registry.Info()
	s.Name, s.ClockFault, s.ClockWarning = service.Name, service.Log.Clock.Fault(), service.Log.Clock.Warning()
	s.Version, s.Started, s.Allocator.Sha256, s.Lag = service.Version, service.Started.UnixMilli(), service.Drf, a.Lag
	s.ClockOffsetMS = service.Log.Clock.Ahead().Milliseconds()
	s.Position, s.Fault, s.Snapshot = a.Position, a.Fault, a.Snapshot
	if s.Fault == "" {
		s.Fault = service.cutOff()
	}
	s.Ready = s.Fault == ""
	s.Allocator.Pid, s.Allocator.Restarts, s.Allocator.Questions = a.Pid, a.Restarts, service.Questions.Pid()
	s.Journal.From, s.Journal.End, s.Journal.Sha256 = service.Journal.Bounds()
	s.At, s.Epoch, s.Offers = info.Now, info.Epoch, info.Offers
	s.KeptKeys = service.Log.Kept.Count()
	if service.Archive != nil {
		status := service.Archive.Status()
		s.Archive = &status
	}
	s.Etcd.Used, s.Etcd.Quota = service.Log.Space.Usage()
	return s
}

// Report returns what this gateway reports to the others.
func (service *Service) Report() members.Gateway {
	s := service.Status()
	return members.Gateway{Name: s.Name, Version: s.Version, Drf: s.Allocator.Sha256, Events: service.Allocator.Events(), Started: s.Started, Ready: s.Ready, Fault: s.Fault,
		ClockFault: s.ClockFault, ClockOffsetMS: s.ClockOffsetMS, Messages: s.Messages, Lag: s.Lag}
}

func (q *request) status() error {
	q.w.Header().Set("Content-Type", "application/json")
	return json.NewEncoder(q.w).Encode(struct {
		Status
		Members members.All `json:"members"`
	}{q.Service.Status(), q.Members.List()})
}
