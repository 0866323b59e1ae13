// The operator API through mesos-go's own client, unpatched. Outside the proof.

package mesos

import (
	"context"
	"errors"
	"testing"
	"time"

	mesos "github.com/mesos/mesos-go/api/v1/lib"
	"github.com/mesos/mesos-go/api/v1/lib/encoding/codecs"
	"github.com/mesos/mesos-go/api/v1/lib/httpcli"
	"github.com/mesos/mesos-go/api/v1/lib/httpcli/apierrors"
	"github.com/mesos/mesos-go/api/v1/lib/httpcli/httpmaster"
	"github.com/mesos/mesos-go/api/v1/lib/master"
	"github.com/mesos/mesos-go/api/v1/lib/master/calls"
	"github.com/mesos/mesos-go/api/v1/lib/quota"
)

// library returns mesos-go's client of the operator API. Codecs are json and protobuf.
func (s *service) library(codec string) calls.Sender {
	kind := codecs.MediaTypeProtobuf
	if codec == "json" {
		kind = codecs.MediaTypeJSON
	}
	return httpmaster.NewSender(httpcli.New(httpcli.Endpoint(s.urls[0]+"/api/v1"), httpcli.Codec(codecs.ByMediaType[kind]),
		httpcli.Do(httpcli.With(httpcli.BasicAuth("admin", s.token), httpcli.Timeout(time.Minute)))).Send)
}

func TestLibraryReads(t *testing.T) {
	s := newService(t, 1, 0)
	_, c, _ := s.cluster()
	for _, codec := range []string{"json", "protobuf"} {
		sender := s.library(codec)
		ask := func(call *master.Call) *master.Response {
			t.Helper()
			answer, err := sender.Send(context.Background(), calls.NonStreaming(call))
			if err != nil {
				t.Fatalf("%s: %v: %v", codec, call.Type, err)
			}
			defer answer.Close()
			m := &master.Response{}
			if err := answer.Decode(m); err != nil {
				t.Fatalf("%s: %v: %v", codec, call.Type, err)
			}
			if m.Type.String() != call.Type.String() {
				t.Errorf("%s: %v answers %v", codec, m.Type, call.Type)
			}
			return m
		}
		if !ask(calls.GetHealth()).GetHealth.Healthy || ask(calls.GetVersion()).GetVersion.VersionInfo.Version != "1.11.0" || len(ask(calls.GetFlags()).GetFlags.Flags) == 0 ||
			ask(calls.GetMaster()).GetMaster.MasterInfo.GetVersion() != "1.11.0" || len(ask(calls.GetMetrics(nil)).GetMetrics.Metrics) < 30 {
			t.Errorf("%s: health, version, flags, master or metrics are not as expected", codec)
		}
		agent := ask(calls.GetAgents()).GetAgents.Agents[0]
		if agent.AgentInfo.ID.Value != "n1" || !agent.Active || agent.TotalResources[0].GetScalar().GetValue() != 4 || agent.AllocatedResources[0].GetAllocationInfo().GetRole() != "web" {
			t.Errorf("%s: %v", codec, agent)
		}
		if f := ask(calls.GetFrameworks()).GetFrameworks.Frameworks[0]; f.FrameworkInfo.ID.Value != c.id || !f.Connected {
			t.Errorf("%s: %v", codec, f)
		}
		if task := ask(calls.GetTasks()).GetTasks.Tasks[0]; task.TaskID.Value != "t1" || task.GetState() != mesos.TASK_RUNNING || task.AgentID.Value != "n1" {
			t.Errorf("%s: %v", codec, task)
		}
		state := ask(calls.GetState()).GetState
		if len(state.GetTasks.Tasks) != 1 || len(state.GetAgents.Agents) != 1 || len(state.GetFrameworks.Frameworks) != 1 || len(ask(calls.GetExecutors()).GetExecutors.Executors) != 0 {
			t.Errorf("%s: %v", codec, state)
		}
		if roles := ask(calls.GetRoles()).GetRoles.Roles; len(roles) != 2 || roles[1].Name != "web" || roles[1].Weight != 1 {
			t.Errorf("%s: %v", codec, roles)
		}
		ask(calls.GetWeights())
		ask(calls.GetQuota())
	}
}

func TestLibraryWrites(t *testing.T) {
	s := newService(t, 1, 0)
	s.cluster()
	web, amount := "web", 1.0
	some := mesos.Resource{Name: "cpus", Type: mesos.SCALAR.Enum(), Scalar: &mesos.Value_Scalar{Value: amount}, Role: &web, Reservation: &mesos.Resource_ReservationInfo{}}
	for _, codec := range []string{"json", "protobuf"} {
		sender := s.library(codec)
		send := func(call *master.Call) error {
			answer, err := sender.Send(context.Background(), calls.NonStreaming(call))
			if answer != nil {
				answer.Close()
			}
			return err
		}
		s.operate(200, `{"type":"UPDATE_QUOTA","update_quota":{"quota_configs":[{"role":"web","limits":{"cpus":{"value":4}}}]}}`)
		for _, call := range []*master.Call{calls.UpdateWeights(mesos.WeightInfo{Role: &web, Weight: 2}), calls.ReserveResources(mesos.AgentID{Value: "n1"}, some),
			calls.UnreserveResources(mesos.AgentID{Value: "n1"}, some), calls.RemoveQuota("web")} {
			if err := send(call); err != nil {
				t.Errorf("%s: %v: %v", codec, call.Type, err)
			}
		}
		refused := (*apierrors.Error)(nil)
		if err := send(calls.RemoveQuota("web")); !errors.As(err, &refused) {
			t.Errorf("%s: %v", codec, err)
		}
		if err := send(calls.SetQuota(quota.QuotaRequest{Role: &web})); err == nil {
			t.Errorf("%s: a guarantee was taken", codec)
		}
	}
	if weight := at(s.operate(200, `{"type":"GET_WEIGHTS"}`), "get_weights", "weight_infos", 0, "weight"); weight != 2.0 {
		t.Error(weight)
	}
}

// A stream in protobuf; in JSON this version of the library does not know HEARTBEAT.
func TestLibraryStream(t *testing.T) {
	s := newService(t, 1, 0)
	a, c, run := s.cluster()
	answer, err := s.library("protobuf").Send(context.Background(), calls.NonStreaming(calls.Subscribe()))
	if err != nil {
		t.Fatal(err)
	}
	defer answer.Close()
	next := func(kind master.Event_Type) master.Event {
		for {
			e := master.Event{}
			if err := answer.Decode(&e); err != nil {
				t.Fatalf("before %v: %v", kind, err)
			}
			if e.Type == kind {
				return e
			}
		}
	}
	if e := next(master.Event_SUBSCRIBED); len(e.Subscribed.GetState.GetTasks.Tasks) != 1 {
		t.Errorf("%v", e)
	}
	a.report(run, "TASK_FINISHED", 2)
	if e := next(master.Event_TASK_UPDATED); e.TaskUpdated.GetState() != mesos.TASK_FINISHED || e.TaskUpdated.FrameworkID.Value != c.id {
		t.Errorf("%v", e)
	}
	s.simulate("n2", scalar("cpus", "1"))
	if e := next(master.Event_AGENT_ADDED); e.AgentAdded.Agent.AgentInfo.ID.Value != "n2" {
		t.Errorf("%v", e)
	}
}
