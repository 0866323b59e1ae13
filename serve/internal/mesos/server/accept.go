// The call ACCEPT: offers become tasks and reservations, and the rest is refused. Outside the proof.

package server

import (
	"context"
	"crypto/sha256"
	"encoding/hex"
	"fmt"
	"math"
	"net/http"
	"strings"
	"time"

	"gateway/internal/api"
	"gateway/internal/mesos/codec"
	"gateway/internal/mesos/resources"
	"gateway/internal/registry/mesos"
)

const (
	maxTasks       = 16     // of one accept, to the allocator
	defaultRefusal = 5000.0 // milliseconds, Mesos' default
)

// part is the remaining resources of one of the offers, and the allocator's tasks for which it is accepted.
type part struct {
	mesos.Offer
	left  resources.Bundle
	names []string
	uses  map[string]resources.Bundle
}

// acceptance is an ACCEPT while it is turned into a message.
type acceptance struct {
	*framework
	epoch     int
	agent     string
	role      string
	agentUser string // as which tasks run there
	parts     []*part
	invalid   string // why the offers cannot be accepted, or empty
	known     map[string]bool

	executors map[string]bool    // custom ones that run on the agent, as far as this gateway knows
	runners   map[string]*runner // custom executors of this call
	note      *mesos.Note
	moves     []map[string]interface{} // reservations
}

func (s *Server) accept(ctx context.Context, f *framework, call codec.Message) error {
	for _, op := range call.List("accept.operations") {
		switch kind, _ := op.Name("type"); kind {
		case "LAUNCH", "LAUNCH_GROUP", "RESERVE", "UNRESERVE":
			if !op.Has(strings.ToLower(kind)) {
				return invalid("Expecting '%s' to be present", strings.ToLower(kind))
			}
		default:
			return api.Refuse(http.StatusNotImplemented, "ACCEPT: the operation %s is not supported; nothing of this call was done", kind)
		}
	}
	var ids []string
	for _, one := range call.List("accept.offer_ids") {
		ids = append(ids, one.Text("value"))
	}
	if !s.knowOffers(f.id, ids) {
		if err := s.catchUp(ctx); err != nil { // before it is said that one does not exist
			return err
		}
	}
	a := s.acceptance(f, ids)
	s.findTasks(a, call.List("accept.operations"))
	sum := sha256.Sum256([]byte(strings.Join(ids, " ")))
	a.note.Call = hex.EncodeToString(sum[:12])
	for _, op := range call.List("accept.operations") {
		if err := a.operation(op); err != nil {
			return err
		}
	}
	more := int64(0)
	for k := range a.note.Launches {
		more += a.note.Launches[k].Bytes()
	}
	if more > 0 && !s.budget.take(f.Principal, more) {
		return api.Refuse(http.StatusTooManyRequests, "%s; nothing of this call was done", s.overBudget(f.Principal))
	}
	return s.putAccept(ctx, a, s.refusal(call.Sub("accept.filters")))
}

func (s *Server) knowOffers(framework string, ids []string) (known bool) {
	known = true
	s.state.Read(func() {
		for _, id := range ids {
			_, is := s.state.FindOffer(framework, id)
			known = known && is
		}
	})
	return known
}

// acceptance finds the offers. The texts are those of Mesos.
func (s *Server) acceptance(f *framework, ids []string) *acceptance {
	a := &acceptance{framework: f, known: map[string]bool{}, executors: map[string]bool{}, runners: map[string]*runner{}, note: &mesos.Note{Kind: mesos.NoteAccept, Framework: f.id}}
	if len(ids) == 0 {
		a.invalid = "No offers specified"
	}
	seen := map[string]bool{}
	s.state.Read(func() {
		a.epoch = s.state.Epoch
		for _, id := range ids {
			o, is := s.state.FindOffer(f.id, id)
			switch {
			case !is:
				a.invalid = "Offer " + id + " is no longer valid"
				continue
			case s.state.Agents[o.Agent] == nil:
				a.invalid = "Offer " + id + " is of an agent without a link"
			case seen[id]:
				a.invalid = "Duplicate offer " + id + " in offer list"
				continue
			case a.agent != "" && a.agent != o.Agent:
				a.invalid = "Aggregated offers must belong to one single agent"
			case a.role != "" && a.role != o.Role:
				a.invalid = "Aggregated offers must be allocated to the same role"
			}
			left, _ := resources.Parse(o.Resources) // which the allocator wrote
			seen[id], a.agent, a.role, a.agentUser = true, o.Agent, o.Role, agentUser(s.state.Agents[o.Agent])
			a.parts = append(a.parts, &part{Offer: o, left: left, uses: map[string]resources.Bundle{}})
		}
	})
	return a
}

// refusal returns for how many milliseconds the remaining resources are refused. As in Mesos, a time that is negative or not a number means the
// default.
func (s *Server) refusal(filters codec.Message) int64 {
	ms := defaultRefusal
	if filters.Has("refuse_seconds") {
		if ms = filters.Float("refuse_seconds") * 1000; math.IsNaN(ms) || ms < 0 {
			ms = defaultRefusal
		}
	}
	return int64(math.Min(ms, float64(s.config.MaxRefuse.Milliseconds())))
}

// groupReasons are the reasons for a group, if they differ in Mesos from those for a task.
var groupReasons = map[string]string{"REASON_TASK_INVALID": "REASON_TASK_GROUP_INVALID", "REASON_TASK_UNAUTHORIZED": "REASON_TASK_GROUP_UNAUTHORIZED"}

func (a *acceptance) operation(op codec.Message) error {
	switch op.Enum("type") {
	case "LAUNCH":
		for _, task := range op.List("launch.task_infos") {
			if state, reason, why := a.launch([]codec.Message{task}, task.Sub("executor"), ""); why != "" {
				a.refuse(task, state, reason, why)
			}
		}
	case "LAUNCH_GROUP":
		tasks := op.List("launch_group.task_group.tasks")
		executor := op.Sub("launch_group.executor")
		if state, reason, why := a.launch(tasks, executor, fmt.Sprintf("group.%d.%d.%d", a.epoch, a.firstOffer(), len(a.note.Launches))); why != "" {
			if group := groupReasons[reason]; group != "" {
				reason = group
			}
			for _, task := range tasks {
				a.refuse(task, state, reason, why)
			}
		}
	default:
		return a.move(op)
	}
	return nil
}

func (a *acceptance) firstOffer() uint64 {
	if len(a.parts) == 0 {
		return 0
	}
	return a.parts[0].Offer.Offer
}

func (a *acceptance) refuse(task codec.Message, state, reason, why string) {
	if state == "TASK_DROPPED" && !a.Has("PARTITION_AWARE") {
		state = "TASK_LOST"
	}
	a.note.Refused = append(a.note.Refused, mesos.Status{Task: task.Text("task_id.value"), Agent: task.Text("agent_id.value"), State: state, Reason: reason, Message: why})
}

// launch adds a task, or the tasks of a group with their executor, or returns why it cannot. The tasks of a group with a DEFAULT executor share
// what they hold. A custom executor has its own resources.
func (a *acceptance) launch(tasks []codec.Message, executor codec.Message, group string) (state, reason, why string) {
	switch {
	case a.invalid != "":
		return "TASK_DROPPED", "REASON_INVALID_OFFERS", "Task launched with invalid offers: " + a.invalid
	case len(a.moves) > 0:
		return "TASK_DROPPED", "REASON_INVALID_OFFERS", "Task launched with invalid offers: RESERVE and LAUNCH in one ACCEPT are not supported: the next offer has the reservation"
	}
	isCustom, own, wanted := false, resources.Bundle{}, resources.Bundle{} // its own is a custom executor's
	var users []string
	if group != "" || !executor.IsAbsent() {
		use, err := a.validateExecutor(executor)
		isCustom = executor.Enum("type") == "CUSTOM"
		switch id := executor.Text("executor_id.value"); {
		case err != nil:
			return "TASK_ERROR", "REASON_TASK_INVALID", err.Error()
		case group == "" && !isCustom:
			return "TASK_ERROR", "REASON_TASK_INVALID", "'ExecutorInfo.type' must be 'CUSTOM' for a task that is not in a group"
		case !isCustom:
			wanted.Add(use)
		case a.runners[id] == nil && !a.isLaunched(id):
			own = use
		}
	}
	for _, task := range tasks {
		use, err := a.validate(task, group != "", isCustom)
		if err != nil {
			return "TASK_ERROR", "REASON_TASK_INVALID", err.Error()
		}
		wanted.Add(use)
		user, state, reason, why := a.userOf(task, executor)
		if why != "" {
			return state, reason, why
		}
		users = append(users, user)
	}
	if missing := a.missing(wanted, own); len(missing) > 0 {
		return "TASK_ERROR", "REASON_TASK_INVALID", fmt.Sprintf("Task uses more resources %s than available %s: %s are missing", wanted.Text(), a.left().Text(), missing.Text())
	}
	by := &runner{}
	if isCustom {
		by = a.runBy(executor, own)
	}
	name := group
	if group == "" {
		name = tasks[0].Text("task_id.value")
	}
	holds := a.hold(name, wanted)
	for k, task := range tasks {
		for _, one := range task.List("resources") { // Mesos sets it where a framework does not
			one.Set("allocation_info.role", a.role)
		}
		id := task.Text("task_id.value")
		if isCustom {
			task.Set("executor", executor)
		}
		l := mesos.Launch{Task: id, Agent: a.agent, Executor: id, Info: task.Protobuf(), Role: a.role, User: users[k], Holds: holds}
		if !executor.IsAbsent() {
			l.Executor = executor.Text("executor_id.value")
			l.ExecutorInfo, l.ExecutorHolds, l.StartsExecutor = by.info, by.holds, isCustom && !a.isLaunched(l.Executor)
		}
		if group != "" {
			l.Group = holds[0].Name
		}
		a.known[id] = true
		a.note.Launches = append(a.note.Launches, l)
	}
	return "", "", ""
}

// left returns the remaining resources of all offers.
func (a *acceptance) left() resources.Bundle {
	all := resources.Bundle{}
	for _, p := range a.parts {
		all.Add(p.left)
	}
	return all
}

// missing returns the wanted resources that the offers do not have.
func (a *acceptance) missing(wanted ...resources.Bundle) resources.Bundle {
	trial := resources.Bundle{}
	for _, some := range wanted {
		trial.Add(some)
	}
	for _, p := range a.parts {
		p.left.Copy().Take(trial)
	}
	return trial
}

// hold takes resources out of the offers, for an allocator's task of each offer that has some of them. Where an offer has many tasks, the
// last ones share one.
func (a *acceptance) hold(name string, wanted resources.Bundle) (holds []mesos.Hold) {
	for k, p := range a.parts {
		taken := p.left.Take(wanted)
		if len(taken) == 0 {
			continue
		}
		hold := holdOf(name, a.epoch, p.Offer.Offer)
		if len(p.names) >= maxTasks-1 {
			hold = fmt.Sprintf("x.rest.%d.%d", a.epoch, p.Offer.Offer)
		}
		if p.uses[hold] == nil {
			p.names, p.uses[hold] = append(p.names, hold), resources.Bundle{}
		}
		p.uses[hold].Add(taken)
		holds = append(holds, mesos.Hold{Name: hold, Line: k})
	}
	return holds
}

// putAccept appends the message. If the allocator has no room for a filter on the remaining resources, the message is repeated without a filter.
func (s *Server) putAccept(ctx context.Context, a *acceptance, refuseMS int64) error {
	m := &message{note: a.note}
	if a.invalid != "" || len(a.moves) > 0 {
		refuseMS = 0
	}
	for _, p := range a.parts {
		if len(p.names) == 0 {
			m.add("decline", "framework", p.Framework, "offer", p.Offer.Offer, "refuse_ms", refuseMS)
			continue
		}
		var tasks []map[string]string
		for _, name := range p.names {
			tasks = append(tasks, map[string]string{"task": name, "use": p.uses[name].Text()})
		}
		m.add("accept", "framework", p.Framework, "offer", p.Offer.Offer, "tasks", tasks, "refuse_ms", refuseMS)
	}
	m.lines = append(m.lines, a.moves...)
	if len(m.lines) == 0 && len(a.note.Refused) == 0 {
		return nil
	}
	answers, err := s.putFor(ctx, a.framework, m)
	if err != nil {
		return err
	}
	again := &message{}
	for k, answer := range answers {
		if k < len(a.parts) && answer == "TooMany" {
			again.add("decline", "framework", a.parts[k].Framework, "offer", a.parts[k].Offer.Offer, "refuse_ms", 0)
		}
		if k >= len(a.parts) && answer != "ok" {
			err = api.Refuse(http.StatusConflict, "the allocator refused %s: %s", m.lines[k]["event"], answer)
		}
	}
	if len(again.lines) > 0 {
		if _, err := s.putFor(ctx, a.framework, again); err != nil {
			return err
		}
	}
	return err
}

func (s *Server) decline(ctx context.Context, f *framework, call codec.Message) error {
	var ids []string
	for _, one := range call.List("decline.offer_ids") {
		ids = append(ids, one.Text("value"))
	}
	if !s.knowOffers(f.id, ids) {
		if err := s.catchUp(ctx); err != nil {
			return err
		}
	}
	a := s.acceptance(f, ids) // offers that are no longer valid are skipped, as by Mesos
	a.invalid = ""
	ctx, cancel := context.WithTimeout(ctx, patience+time.Second)
	defer cancel()
	return s.putAccept(ctx, a, s.refusal(call.Sub("decline.filters")))
}

// findTasks notes which tasks of a call exist already.
func (s *Server) findTasks(a *acceptance, operations []codec.Message) {
	s.state.Read(func() {
		f := s.state.Frameworks[a.id]
		if f == nil {
			return
		}
		for _, op := range operations {
			for _, task := range append(op.List("launch.task_infos"), op.List("launch_group.task_group.tasks")...) {
				id := task.Text("task_id.value")
				a.known[id] = a.known[id] || f.Tasks[id] != nil
			}
		}
		for _, e := range f.Executors {
			a.executors[e.ID] = a.executors[e.ID] || e.Agent == a.agent
		}
	})
}
