// The status of each member of etcd. Outside the proof.

package etcd

import (
	"context"
	"fmt"
	"sync"
	"time"

	"go.etcd.io/etcd/clientv3"
	"go.etcd.io/etcd/version"
)

// MemberStatus is the status of a member of etcd, as far as it is known.
type MemberStatus struct {
	ID        string   `json:"id"`
	Name      string   `json:"name"`
	Reachable bool     `json:"reachable"` // else only its name and whether it leads are known
	Leader    bool     `json:"leader"`
	Learner   bool     `json:"learner"`
	Version   string   `json:"version"`
	Index     int64    `json:"index"` // of the last entry that it applied
	Lag       int64    `json:"lag"`   // entries that another member applied before, and this one has not
	Used      int64    `json:"used"`  // bytes of the store that are in use
	Size      int64    `json:"size"`  // bytes of its file, which the quota limits
	Quota     int64    `json:"quota"`
	Problems  []string `json:"problems"` // such as a full store, as etcd names them
}

// statusPatience is the time that a member has to answer.
const statusPatience = time.Second

// Members returns the status of each member: the embedded one's directly, and others' by asking them. Members that do not answer are not Reachable.
func (c *Cluster) Members(ctx context.Context) ([]MemberStatus, error) {
	if c.isEmbedded {
		return c.embeddedMembers(), nil
	}
	ctx, cancel := context.WithTimeout(ctx, statusPatience)
	defer cancel()
	c.mu.Lock()
	clients := append([]*clientv3.Client(nil), c.clients...)
	c.mu.Unlock()
	answers := make([]*clientv3.StatusResponse, len(clients))
	var group sync.WaitGroup
	for k := range clients {
		group.Add(1)
		go func(k int) {
			defer group.Done()
			if answer, err := statusOf(ctx, clients[k]); err == nil {
				answers[k] = answer
			}
		}(k)
	}
	list, err := clients[0].MemberList(ctx)
	group.Wait()
	if err != nil {
		return nil, fmt.Errorf("the members of etcd: %w", err)
	}
	found := make([]MemberStatus, len(list.Members))
	for k, m := range list.Members {
		found[k] = MemberStatus{ID: idText(m.ID), Name: m.Name, Learner: m.IsLearner, Quota: c.quota, Problems: []string{}}
		for _, a := range answers {
			if a != nil && a.Leader == m.ID {
				found[k].Leader = true
			}
			if a != nil && a.Header.MemberId == m.ID {
				found[k].Reachable, found[k].Version, found[k].Index = true, a.Version, int64(a.RaftAppliedIndex)
				found[k].Used, found[k].Size, found[k].Problems = a.DbSizeInUse, a.DbSize, append(found[k].Problems, a.Errors...)
			}
		}
	}
	for k := range found {
		for _, other := range found {
			if found[k].Reachable && other.Index-found[k].Index > found[k].Lag {
				found[k].Lag = other.Index - found[k].Index
			}
		}
	}
	return found, nil
}

func idText(id uint64) string { return fmt.Sprintf("%x", id) }

// embeddedMembers returns the members that the embedded one knows. It is asked directly, because its client panics if the member was removed.
func (c *Cluster) embeddedMembers() (found []MemberStatus) {
	server := c.member.Server
	for _, m := range server.Cluster().Members() {
		s := MemberStatus{ID: m.ID.String(), Name: m.Name, Leader: m.ID == server.Leader(), Learner: m.IsLearner, Quota: c.quota, Problems: []string{}}
		if m.ID == server.ID() {
			s.Reachable, s.Version, s.Index = c.Problem() == "", version.Version, int64(server.AppliedIndex())
			s.Used, s.Size = server.Backend().SizeInUse(), server.Backend().Size()
			for _, alarm := range server.Alarms() {
				s.Problems = append(s.Problems, alarm.String())
			}
		}
		found = append(found, s)
	}
	return found
}

// OwnID returns the ID of the embedded member, or an empty text.
func (c *Cluster) OwnID() string {
	if !c.isEmbedded {
		return ""
	}
	return c.member.Server.ID().String()
}
