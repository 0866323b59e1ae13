// Computes what the allocator gives to the demand of a cluster. Outside the proof.

package shadow

import (
	"bytes"
	"context"
	"encoding/json"
	"fmt"

	"gateway/internal/importer"
	"gateway/internal/mesos/document"
	"gateway/internal/mesos/resources"
)

// A client with endless demand accepts one task of an offer or, if more fit, the tasks that fit divided by this number. So shares grow step by
// step, and a large cluster is filled in some hundred cycles.
const part = 20

// A filter of this length lasts for the whole run, because the clock does not advance in the run.
const refuseMS = 1_000_000

// allocation is what each client holds at the end.
type allocation struct {
	held  []resources.Bundle // of each client, with what it holds on agents that get no offers
	unmet []int              // of each client: tasks that found no place; endless for those that want more
	free  []resources.Bundle // of each agent
}

// run is a run of the allocator.
type run struct {
	*allocation
	clients []*client
	wishes  [][]wish
	index   map[[2]string]int // of clients by framework and role
	agents  map[string]int
	tasks   int
	lines   bytes.Buffer
	encoder *json.Encoder
}

// allocate lets the allocator give the clients of a cluster what they want, starting from nothing.
func allocate(ctx context.Context, program string, cluster *document.Cluster, clients []*client, wantMore bool) (*allocation, error) {
	a, err := startAllocator(ctx, program)
	if err != nil {
		return nil, err
	}
	defer a.close()
	lines, leftOut := importer.Lines(withoutTasks(cluster), importer.ByID)
	if len(leftOut) > 0 {
		return nil, fmt.Errorf("the cluster is too large: %s", leftOut[0])
	}
	if _, err := a.exchange(lines); err != nil {
		return nil, err
	}
	r := newRun(cluster, clients, wantMore)
	for {
		r.encode(map[string]any{"event": "cycle", "at": 0})
		offers, err := a.exchange(r.lines.Bytes())
		if err != nil {
			return nil, err
		}
		if len(offers) == 0 {
			return r.allocation, nil
		}
		r.lines.Reset()
		declined := map[string]bool{}
		for _, o := range offers {
			accepts, err := r.answer(o)
			if err != nil {
				return nil, err
			}
			declined[o.Agent] = declined[o.Agent] || !accepts
		}
		for _, agent := range cluster.Agents {
			if declined[agent.ID] && !r.isUsable(r.agents[agent.ID]) {
				r.encode(map[string]any{"event": "deactivate_agent", "agent": agent.ID})
			}
		}
	}
}

// isUsable reports whether a wish of any client fits into the free resources of an agent. An agent on which none fits needs no more filters.
func (r *run) isUsable(agent int) bool {
	for k, c := range r.clients {
		if r.unmet[k] == 0 {
			continue
		}
		available := usable(r.free[agent], c.role)
		for _, w := range r.wishes[k] {
			if w.count != 0 && fits(w.size, available) > 0 {
				return true
			}
		}
	}
	return false
}

// usable returns the scalars that a role may use.
func usable(free resources.Bundle, role string) resources.Bundle {
	own := resources.Bundle{}
	for key, v := range free {
		if key.Role == "*" || resources.IsBelow(role, key.Role) {
			own[key] = v
		}
	}
	return scalarsOf(own)
}

// withoutTasks returns a cluster without the tasks on agents that get offers.
func withoutTasks(cluster *document.Cluster) *document.Cluster {
	without := *cluster
	without.Frameworks = nil
	for _, f := range cluster.Frameworks {
		var kept []document.Holding
		for _, h := range f.Holdings {
			if !cluster.Agents[h.Agent].IsActive {
				kept = append(kept, h)
			}
		}
		f.Holdings = kept
		without.Frameworks = append(without.Frameworks, f)
	}
	return &without
}

func newRun(cluster *document.Cluster, clients []*client, wantMore bool) *run {
	r := &run{allocation: &allocation{}, clients: clients, index: map[[2]string]int{}, agents: map[string]int{}}
	r.encoder = json.NewEncoder(&r.lines)
	r.encoder.SetEscapeHTML(false)
	for k, agent := range cluster.Agents {
		r.agents[agent.ID] = k
		r.free = append(r.free, agent.Total.Copy())
	}
	for _, f := range cluster.Frameworks {
		for _, h := range f.Holdings {
			if !cluster.Agents[h.Agent].IsActive {
				r.free[h.Agent].Take(h.Use.Copy())
			}
		}
	}
	for k, c := range clients {
		r.index[[2]string{c.framework, c.role}] = k
		r.held, r.unmet = append(r.held, c.fixed.Copy()), append(r.unmet, 0)
		wishes := append([]wish(nil), c.wishes...)
		if wantMore && c.wantsMore && len(c.mean) > 0 {
			wishes = []wish{{c.mean, endless}}
		}
		r.wishes = append(r.wishes, wishes)
		for _, w := range wishes {
			if w.count == endless {
				r.unmet[k] = endless
			} else {
				r.unmet[k] += w.count
			}
		}
		r.setWants(k, len(wishes) > 0)
	}
	return r
}

func (r *run) encode(event map[string]any) {
	if err := r.encoder.Encode(event); err != nil {
		panic(err) // an event has only texts and numbers
	}
}

func (r *run) setWants(k int, wants bool) {
	event := "suppress"
	if wants {
		event = "revive"
	}
	r.encode(map[string]any{"event": event, "framework": r.clients[k].framework, "role": r.clients[k].role})
}

// answer accepts an offer for the largest wish that fits. Otherwise it declines the offer for ever, because the free resources of an agent only
// decrease.
func (r *run) answer(o offer) (accepts bool, err error) {
	k := r.index[[2]string{o.Framework, o.Role}]
	b, err := resources.Parse(o.Resources)
	if err != nil {
		return false, fmt.Errorf("the allocator offers %s: %w", o.Resources, err)
	}
	available := scalarsOf(b)
	for place := range r.wishes[k] {
		w := &r.wishes[k][place]
		times := fits(w.size, available)
		if w.count == 0 || times == 0 {
			continue
		}
		count := uint64(1)
		if w.count == endless && times/part > 1 {
			count = times / part
		}
		use := b.TakeFor(o.Role, multiple(w.size, count))
		r.tasks++
		r.encode(map[string]any{"event": "accept", "framework": o.Framework, "offer": o.Offer, "task": fmt.Sprintf("s%d", r.tasks), "use": use.Text(), "at": 0, "refuse_ms": 0})
		r.held[k].Add(use)
		r.free[r.agents[o.Agent]].Take(use.Copy())
		if w.count != endless {
			w.count--
			if r.unmet[k]--; r.unmet[k] == 0 {
				r.setWants(k, false)
			}
		}
		return true, nil
	}
	r.encode(map[string]any{"event": "decline", "framework": o.Framework, "offer": o.Offer, "at": 0, "refuse_ms": refuseMS})
	return false, nil
}
