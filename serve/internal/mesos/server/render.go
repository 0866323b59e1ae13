// Events as messages of Mesos' and of the link. Outside the proof.

package server

import (
	"net"
	"strconv"

	"gateway/internal/mesos/codec"
	"gateway/internal/mesos/resources"
	"gateway/internal/registry/mesos"
)

const (
	heartbeatSeconds = 15
	mesosVersion     = "1.11.0" // whose API this is
	offersTogether   = 200      // in one event: clients read records of at most 4 MiB
)

// render writes an event for a framework.
func (s *Server) render(e mesos.Event) (list []codec.Message) {
	m := codec.New("mesos.scheduler.Event").Set("type", e.Kind)
	switch e.Kind {
	case "SUBSCRIBED":
		m.Set("subscribed.framework_id.value", e.Framework).Set("subscribed.heartbeat_interval_seconds", float64(heartbeatSeconds)).Set("subscribed.master_info", s.masterInfo())
		return []codec.Message{m, codec.New("mesos.scheduler.Event").Set("type", "HEARTBEAT")} // the first one at once, as by Mesos
	case "OFFERS":
		offers := codec.New("mesos.scheduler.Event.Offers")
		for k, o := range e.Offers {
			if offers.Add("offers", renderOffer(e.Framework, o)); (k+1)%offersTogether == 0 && k+1 < len(e.Offers) {
				list = append(list, codec.New("mesos.scheduler.Event").Set("type", "OFFERS").Set("offers", offers))
				offers = codec.New("mesos.scheduler.Event.Offers")
			}
		}
		m.Set("offers", offers)
	case "RESCIND":
		m.Set("rescind.offer_id.value", e.Message)
	case "UPDATE":
		m.Set("update.status", renderStatus(*e.Status))
	case "MESSAGE":
		m.Set("message.agent_id.value", e.Agent).Set("message.executor_id.value", e.Executor).Set("message.data", e.Data)
	case "FAILURE":
		m.Set("failure.agent_id.value", e.Agent)
		if e.Executor != "" {
			m.Set("failure.executor_id.value", e.Executor).Set("failure.status", e.Code)
		}
	}
	return append(list, m)
}

func errorEvent(reason string) codec.Message {
	return codec.New("mesos.scheduler.Event").Set("type", "ERROR").Set("error.message", reason)
}

func (s *Server) masterInfo() codec.Message {
	host, port, _ := net.SplitHostPort(s.config.Address)
	number, _ := strconv.Atoi(port)
	four := net.ParseIP(host).To4()
	if four == nil || four.IsUnspecified() {
		host, four = "127.0.0.1", net.IPv4(127, 0, 0, 1).To4()
	}
	ip := int64(four[0]) | int64(four[1])<<8 | int64(four[2])<<16 | int64(four[3])<<24 // in the order of the network
	id := ""
	s.state.Read(func() { id = s.state.Cluster })
	m := codec.New("mesos.MasterInfo").Set("id", id).Set("ip", ip).Set("port", number).Set("hostname", host).Set("version", mesosVersion)
	m.Set("pid", "master@"+net.JoinHostPort(host, strconv.Itoa(number)))
	return m.Set("address.hostname", host).Set("address.ip", host).Set("address.port", number)
}

func renderOffer(framework string, o mesos.OfferOf) codec.Message {
	m := codec.New("mesos.Offer").Set("id.value", o.ID).Set("framework_id.value", framework).Set("agent_id.value", o.Agent).Set("hostname", o.Agent)
	style := resources.Style{Refined: o.Framework.Has("RESERVATION_REFINEMENT")}
	if o.Framework.Has("MULTI_ROLE") {
		style.Allocated = o.Role
		m.Set("allocation_info.role", o.Role)
	}
	bundle, _ := resources.Parse(o.Resources) // which the allocator wrote
	for _, one := range bundle.Messages(style) {
		m.Add("resources", one)
	}
	if o.AgentInfo != nil {
		info := codec.MustReadProtobuf("mesos.AgentInfo", o.AgentInfo)
		host := info.Text("hostname")
		m.Set("hostname", host).Set("domain", info.Sub("domain"))
		for _, one := range info.List("attributes") {
			m.Add("attributes", one)
		}
		m.Set("url.scheme", "http").Set("url.path", "/slave(1)").Set("url.address.hostname", host).Set("url.address.port", info.Int("port"))
	}
	return m
}

// renderStatus writes a status. A status of an agent is written as it came, except that a reconciliation has only the state.
func renderStatus(status mesos.Status) codec.Message {
	m := codec.New("mesos.TaskStatus")
	if status.Raw != nil {
		if m = codec.MustReadProtobuf("mesos.TaskStatus", status.Raw); status.Reason == "" {
			return m
		}
		m.Clear("uuid")
		m.Clear("data")
	}
	m.Set("task_id.value", status.Task).Set("state", status.State).Set("source", "SOURCE_MASTER").Set("timestamp", float64(status.At)/1000)
	if status.Agent != "" {
		m.Set("agent_id.value", status.Agent)
	}
	if status.Reason != "" {
		m.Set("reason", status.Reason)
	}
	if status.Message != "" {
		m.Set("message", status.Message)
	}
	if len(status.UUID) > 0 {
		m.Set("uuid", status.UUID)
	}
	return m
}

// renderLink writes an event for an agent.
func renderLink(e mesos.Event) codec.Message {
	m := codec.New("durzhanok.link.Event").Set("type", e.Kind)
	for _, one := range e.Executors {
		m.Add("executors", renderExecutor(one))
	}
	switch e.Kind {
	case "REGISTERED", "RUN":
		for _, t := range e.Tasks {
			m.Add("tasks", renderTask(t))
		}
		if e.Kind == "REGISTERED" {
			m.Set("heartbeat_interval_seconds", float64(heartbeatSeconds))
		}
	case "KILL":
		m.Set("kill", renderTask(e.Tasks[0]))
	case "MESSAGE":
		m.Set("message.framework_id.value", e.Framework).Set("message.executor_id.value", e.Executor).Set("message.data", e.Data)
	}
	return m
}

func renderTask(t mesos.TaskOf) codec.Message {
	m := codec.New("durzhanok.link.Task").Set("framework_id.value", t.Framework).Set("user", t.User).Set("launch", t.Number).Set("state", t.State)
	m.Set("task_info", codec.MustReadProtobuf("mesos.TaskInfo", t.Info)).Set("killing", t.IsKilling)
	if t.GraceMS >= 0 {
		m.Set("grace_ms", t.GraceMS)
	}
	if t.Executor != nil {
		m.Set("executor", renderExecutor(t.Executor))
	}
	for _, one := range t.Capabilities {
		m.Add("capabilities", one)
	}
	if t.Group != "" {
		m.Set("group", t.Group).Set("executor_id.value", t.ExecutorID)
	}
	return m
}

func renderExecutor(e *mesos.ExecutorOf) codec.Message {
	m := codec.New("durzhanok.link.Executor").Set("framework_id.value", e.Framework).Set("launch", e.Number).Set("user", e.User).Set("ending", e.IsEnding)
	return m.Set("executor_info", codec.MustReadProtobuf("mesos.ExecutorInfo", e.Info)).Set("framework_info", codec.MustReadProtobuf("mesos.FrameworkInfo", e.FrameworkInfo))
}
