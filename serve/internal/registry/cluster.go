// The offers, agents and frameworks that exist, derived from replies. Outside the proof.

package registry

import (
	"encoding/json"
	"sort"
)

// Offer is an offer that exists.
type Offer struct {
	Agent     string `json:"agent"`
	Framework string `json:"framework"`
	Offer     uint64 `json:"offer"`
	Resources string `json:"resources"`
	Role      string `json:"role"`
}

// heldOffer is an offer with the timestamp of the cycle that made it.
type heldOffer struct {
	Offer
	Made int64 `json:"made"`
}

// Kinds of owners that register and send heartbeats.
const (
	Agents     = "agents"
	Frameworks = "frameworks"
)

type numbers map[uint64]bool

// cluster is the State of what exists. Offers are indexed by framework and by agent.
type cluster struct {
	hub      *hub
	observer Observer

	offers      map[uint64]heldOffer
	byFramework map[string]numbers
	byAgent     map[string]numbers
	agents      map[string]int64 // and the message that registered each
	frameworks  map[string]int64
	tasks       map[string]map[string]string // by framework and name, and the agent of each
}

func newCluster(hub *hub, observer Observer) *cluster {
	c := &cluster{hub: hub, observer: observer}
	c.clear()
	return c
}

func (c *cluster) clear() {
	c.offers, c.byFramework, c.byAgent = map[uint64]heldOffer{}, map[string]numbers{}, map[string]numbers{}
	c.agents, c.frameworks, c.tasks = map[string]int64{}, map[string]int64{}, map[string]map[string]string{}
}

func (c *cluster) Name() string { return "cluster" }

// Begin ends all offers, because numbers begin again.
func (c *cluster) Begin(int) { c.end("epoch", c.sorted(nil)) }

// Apply applies the events that were accepted.
func (c *cluster) Apply(m *Message) {
	for k, line := range m.Lines {
		if reply := m.Replies[k]; answerOf(reply) == "ok" {
			c.follow(Kind(line), line, reply, m)
		}
	}
}

func (c *cluster) follow(kind string, line, reply []byte, m *Message) {
	switch kind {
	case "cycle":
		var made struct{ Offers []Offer }
		json.Unmarshal(reply, &made)
		for _, o := range made.Offers {
			c.add(heldOffer{o, m.At})
			c.observer.OfferMade(o.Framework)
			c.publish(o, "offer", o)
		}
	case "accept", "decline", "rescind":
		fields, number := Fields(line), uint64(0)
		json.Unmarshal(fields["offer"], &number)
		if o, is := c.offers[number]; is && kind == "accept" {
			c.launch(o.Offer, fields)
		}
		c.end(kind, c.sorted(numbers{number: true}))
	case "finish":
		fields := Fields(line)
		c.finish(Text(fields, "framework"), Text(fields, "task"))
	case "add_agent":
		c.agents[TextOf(line, "agent")] = m.Number
	case "add_framework":
		c.frameworks[TextOf(line, "framework")] = m.Number
	case "remove_agent", "deactivate_agent":
		name := TextOf(line, "agent")
		if c.end(kind, c.sortedOrNone(c.byAgent[name])); kind == "remove_agent" {
			c.removeAgent(name)
		}
	case "remove_framework":
		name := TextOf(line, "framework")
		c.end(kind, c.sortedOrNone(c.byFramework[name]))
		delete(c.frameworks, name)
		delete(c.tasks, name)
		c.observer.FrameworkRemoved(name)
	}
}

// launch adds the tasks of an accept: one by name, or several.
func (c *cluster) launch(o Offer, fields map[string]json.RawMessage) {
	var several []struct{ Task string }
	json.Unmarshal(fields["tasks"], &several)
	if name := Text(fields, "task"); name != "" {
		several = append(several, struct{ Task string }{name})
	}
	for _, one := range several {
		c.addTask(o.Framework, one.Task, o.Agent)
	}
}

func (c *cluster) addTask(framework, name, agent string) {
	if c.tasks[framework] == nil {
		c.tasks[framework] = map[string]string{}
	}
	c.tasks[framework][name] = agent
}

func (c *cluster) finish(framework, name string) {
	if delete(c.tasks[framework], name); len(c.tasks[framework]) == 0 {
		delete(c.tasks, framework)
	}
}

func (c *cluster) removeAgent(agent string) {
	delete(c.agents, agent)
	for framework, tasks := range c.tasks {
		for name, on := range tasks {
			if on == agent {
				c.finish(framework, name)
			}
		}
	}
}

func (c *cluster) countTasks() (count int) {
	for _, tasks := range c.tasks {
		count += len(tasks)
	}
	return count
}

func (c *cluster) add(o heldOffer) {
	c.offers[o.Offer.Offer] = o
	put(c.byFramework, o.Framework, o.Offer.Offer)
	put(c.byAgent, o.Agent, o.Offer.Offer)
}

func put(index map[string]numbers, name string, number uint64) {
	if index[name] == nil {
		index[name] = numbers{}
	}
	index[name][number] = true
}

func take(index map[string]numbers, name string, number uint64) {
	if delete(index[name], number); len(index[name]) == 0 {
		delete(index, name)
	}
}

// end removes offers, and notifies those who follow them.
func (c *cluster) end(reason string, ended []heldOffer) {
	for _, o := range ended {
		number := o.Offer.Offer
		delete(c.offers, number)
		take(c.byFramework, o.Framework, number)
		take(c.byAgent, o.Agent, number)
		c.observer.OfferEnded(o.Framework, reason)
		c.publish(o.Offer, "gone", map[string]interface{}{"offer": number, "why": reason})
	}
}

// publish notifies those who follow the offers of a framework.
func (c *cluster) publish(o Offer, name string, data interface{}) {
	c.hub.publish(OffersOf(o.Framework), func() []byte { return Event(0, name, data) })
}

func (c *cluster) sortedOrNone(chosen numbers) []heldOffer {
	if len(chosen) == 0 {
		return nil
	}
	return c.sorted(chosen)
}

// sorted returns the offers with some numbers, or all for nil, in order of their numbers.
func (c *cluster) sorted(chosen numbers) (offers []heldOffer) {
	if chosen == nil {
		for _, o := range c.offers {
			offers = append(offers, o)
		}
	}
	for number := range chosen {
		if o, is := c.offers[number]; is {
			offers = append(offers, o)
		}
	}
	sort.Slice(offers, func(i, j int) bool { return offers[i].Offer.Offer < offers[j].Offer.Offer })
	return offers
}

// LateOffers returns the numbers of the offers that were made before a timestamp, and the epoch of these numbers.
func (r *Registry) LateOffers(before int64) (late []uint64, epoch int) {
	r.mu.RLock()
	defer r.mu.RUnlock()
	for _, o := range r.cluster.sorted(nil) {
		if o.Made < before {
			late = append(late, o.Offer.Offer)
		}
	}
	return late, r.epoch
}

// Registration returns the message that registered an agent or a framework, and whether it exists.
func (r *Registry) Registration(kind, name string) (message int64, is bool) {
	r.mu.RLock()
	defer r.mu.RUnlock()
	if kind == Frameworks {
		message, is = r.cluster.frameworks[name]
	} else {
		message, is = r.cluster.agents[name]
	}
	return message, is
}

// Names returns the names of the agents or frameworks that are registered, in order.
func (r *Registry) Names(kind string) []string {
	r.mu.RLock()
	defer r.mu.RUnlock()
	of := r.cluster.agents
	if kind == Frameworks {
		of = r.cluster.frameworks
	}
	names := make([]string, 0, len(of))
	for name := range of {
		names = append(names, name)
	}
	sort.Strings(names)
	return names
}
