// Command scheduler is a framework over mesos-go's v1 library, unpatched: it runs commands until as many as asked for have finished. A task
// that is lost or fails is launched again, under another id. Outside the proof.
package main

import (
	"context"
	"flag"
	"fmt"
	"log"
	"net/http"
	"os"
	"strings"
	"time"

	mesos "github.com/mesos/mesos-go/api/v1/lib"
	"github.com/mesos/mesos-go/api/v1/lib/backoff"
	"github.com/mesos/mesos-go/api/v1/lib/encoding/codecs"
	"github.com/mesos/mesos-go/api/v1/lib/extras/scheduler/callrules"
	"github.com/mesos/mesos-go/api/v1/lib/extras/scheduler/controller"
	"github.com/mesos/mesos-go/api/v1/lib/extras/scheduler/eventrules"
	"github.com/mesos/mesos-go/api/v1/lib/extras/store"
	"github.com/mesos/mesos-go/api/v1/lib/httpcli"
	"github.com/mesos/mesos-go/api/v1/lib/httpcli/httpsched"
	"github.com/mesos/mesos-go/api/v1/lib/resources"
	"github.com/mesos/mesos-go/api/v1/lib/scheduler"
	"github.com/mesos/mesos-go/api/v1/lib/scheduler/calls"
	"github.com/mesos/mesos-go/api/v1/lib/scheduler/events"
)

var (
	url      = flag.String("url", "http://127.0.0.1:8450/api/v1/scheduler", "the scheduler API of a gateway")
	others   = flag.String("gateways", "", "HOST:PORT of all gateways, with commas: who does not answer is left for another")
	history  = flag.String("record", "", "file of all launches and statuses, so that a restart goes on with them")
	user     = flag.String("principal", "admin", "name of the token")
	secret   = flag.String("token-file", "", "file of the token")
	encoding = flag.String("codec", "protobuf", "protobuf or json")
	role     = flag.String("role", "web", "role")
	single   = flag.Bool("single", false, "subscribe without MULTI_ROLE")
	prefix   = flag.String("prefix", "task", "what ids of tasks begin with")
	idFile   = flag.String("id-file", "", "file of the framework's id, so that a restart is a failover")
	wanted   = flag.Int("tasks", 10, "tasks that are to finish")
	command  = flag.String("command", "echo $MESOS_TASK_ID", "shell command")
	runner   = flag.String("executor", "", "shell command of a custom executor that runs the tasks")
	within   = flag.Duration("within", 2*time.Minute, "time for all of them")
)

// framework counts its tasks. Events come one after another, so nothing is locked.
type framework struct {
	caller   calls.Caller
	record   *record
	agents   map[string]string // of tasks that an earlier process launched
	launched int
	running  map[string]bool
	finished map[string]bool
}

func main() {
	flag.Parse()
	log.SetFlags(log.Lmicroseconds)
	token, err := os.ReadFile(*secret)
	if err != nil {
		log.Fatal(err)
	}
	codec := codecs.ByMediaType[codecs.MediaTypeProtobuf]
	if *encoding == "json" {
		codec = codecs.ByMediaType[codecs.MediaTypeJSON]
	}
	options := []httpcli.ConfigOpt{httpcli.BasicAuth(*user, strings.TrimSpace(string(token))), httpcli.Timeout(20 * time.Second)}
	if *others != "" {
		options = append(options, httpcli.WrapRoundTripper(func(next http.RoundTripper) http.RoundTripper {
			return &gateways{next: next, hosts: strings.Split(*others, ",")}
		}))
	}
	client := httpcli.New(httpcli.Endpoint(*url), httpcli.Codec(codec), httpcli.Do(httpcli.With(options...)))
	id := store.NewInMemorySingleton()
	if text, err := os.ReadFile(*idFile); err == nil {
		id.Set(strings.TrimSpace(string(text)))
	}
	f := &framework{running: map[string]bool{}, finished: map[string]bool{}, agents: map[string]string{}}
	f.takeUp(*history)
	f.record = openRecord(*history)
	f.caller = callrules.New(callrules.WithFrameworkID(store.GetIgnoreErrors(id))).Caller(httpsched.NewCaller(client, httpsched.AllowReconnection(true)))
	failover := time.Hour.Seconds()
	info := &mesos.FrameworkInfo{User: "root", Name: "test", FailoverTimeout: &failover, Roles: []string{*role},
		Capabilities: []mesos.FrameworkInfo_Capability{{Type: mesos.FrameworkInfo_Capability_MULTI_ROLE}}}
	if *single {
		info.Roles, info.Role, info.Capabilities = nil, role, nil
	}
	if known := store.GetIgnoreErrors(id)(); known != "" {
		info.ID = &mesos.FrameworkID{Value: known}
	}
	time.AfterFunc(*within, func() { log.Fatalf("NOT DONE: %d finished of %d", len(f.finished), *wanted) })
	ctx := context.Background()
	handler := eventrules.New(controller.LiftErrors()).Handle(events.Handlers{
		scheduler.Event_SUBSCRIBED: eventrules.New(controller.TrackSubscription(id, time.Hour)).HandleF(f.subscribed),
		scheduler.Event_HEARTBEAT:  events.HandlerFunc(f.reconcile),
		scheduler.Event_OFFERS:     events.HandlerFunc(f.offers),
		scheduler.Event_UPDATE:     eventrules.New(f.record.statuses, controller.AckStatusUpdates(f.caller)).HandleF(f.update),
	}.Otherwise(func(_ context.Context, e *scheduler.Event) error {
		log.Printf("event %s", e.GetType())
		return nil
	}))
	err = controller.Run(ctx, info, f.caller, controller.WithEventHandler(handler), controller.WithFrameworkID(store.GetIgnoreErrors(id)),
		controller.WithRegistrationTokens(backoff.Notifier(50*time.Millisecond, time.Second, ctx.Done())),
		controller.WithSubscriptionTerminated(func(err error) { log.Printf("the subscription ended: %v", err) }))
	log.Fatal(err)
}

func (f *framework) subscribed(ctx context.Context, e *scheduler.Event) error {
	log.Printf("SUBSCRIBED as %s", e.Subscribed.FrameworkID.Value)
	if *idFile != "" {
		if err := os.WriteFile(*idFile, []byte(e.Subscribed.FrameworkID.Value), 0o600); err != nil {
			log.Fatal(err)
		}
	}
	f.finish(ctx)
	if err := f.reconcile(ctx, e); err != nil {
		return err
	}
	return calls.CallNoData(ctx, f.caller, calls.Reconcile())
}

// reconcile asks for the states of the tasks that are not known to have ended. It is done with each heartbeat too, as an answer may be lost.
func (f *framework) reconcile(ctx context.Context, _ *scheduler.Event) error {
	known := map[string]string{}
	for id := range f.running {
		known[id] = f.agents[id]
	}
	if len(known) == 0 || *history == "" {
		return nil
	}
	return calls.CallNoData(ctx, f.caller, calls.Reconcile(calls.ReconcileTasks(known)))
}

// finish ends the framework when it has what it wanted, and nothing else runs.
func (f *framework) finish(ctx context.Context) {
	if len(f.finished) < *wanted || *history != "" && len(f.running) > 0 {
		return
	}
	log.Printf("DONE: %d finished", len(f.finished))
	go func() {
		time.Sleep(300 * time.Millisecond) // the last acknowledgement is sent when this returns
		calls.CallNoData(ctx, f.caller, &scheduler.Call{Type: scheduler.Call_TEARDOWN})
		os.Exit(0)
	}()
}

func (f *framework) offers(ctx context.Context, e *scheduler.Event) error {
	need := mesos.Resources{resources.NewCPUs(0.1).Resource, resources.NewMemory(16).Resource}
	for _, o := range e.Offers.Offers {
		var tasks []mesos.TaskInfo
		left := mesos.Resources(o.Resources)
		own := f.executor(&left)
		for len(f.finished)+len(f.running)+len(tasks) < *wanted {
			found := resources.Find(need, left...)
			if found == nil {
				break
			}
			left.Subtract(found...)
			id := fmt.Sprintf("%s-%d", *prefix, f.launched)
			f.launched++
			task := mesos.TaskInfo{Name: id, TaskID: mesos.TaskID{Value: id}, AgentID: o.AgentID, Resources: found}
			if task.Command = &(mesos.CommandInfo{Value: command}); own != nil {
				task.Command, task.Executor, task.Data = nil, own, []byte(*command)
			}
			tasks = append(tasks, task)
		}
		for _, t := range tasks {
			f.running[t.TaskID.Value], f.agents[t.TaskID.Value] = true, o.AgentID.Value
			f.record.write("launch %s %s", t.TaskID.Value, o.AgentID.Value)
		}
		accept := calls.Accept(calls.OfferOperations{calls.OpLaunch(tasks...)}.WithOffers(o.ID)).With(calls.RefuseSeconds(200 * time.Millisecond))
		if err := calls.CallNoData(ctx, f.caller, accept); err != nil {
			log.Printf("ACCEPT: %v", err) // a reconciliation says whether it was taken
			if err := calls.CallNoData(ctx, f.caller, calls.Reconcile(calls.ReconcileTasks(idsOf(tasks, o.AgentID.Value)))); err != nil {
				log.Printf("RECONCILE: %v", err)
			}
		}
	}
	return nil
}

// executor takes the resources of the custom executor out of an offer, or returns nil where commands run without one. The executor is the same
// for all tasks; where it runs already, its resources stay in the offer.
func (f *framework) executor(left *mesos.Resources) *mesos.ExecutorInfo {
	if *runner == "" {
		return nil
	}
	found := resources.Find(mesos.Resources{resources.NewCPUs(0.05).Resource, resources.NewMemory(16).Resource}, *left...)
	left.Subtract(found...)
	return &mesos.ExecutorInfo{Type: mesos.ExecutorInfo_CUSTOM, ExecutorID: mesos.ExecutorID{Value: "e"}, Command: &mesos.CommandInfo{Value: runner}, Resources: found}
}

func idsOf(tasks []mesos.TaskInfo, agent string) map[string]string {
	ids := map[string]string{}
	for _, t := range tasks {
		ids[t.TaskID.Value] = agent
	}
	return ids
}

func (f *framework) update(ctx context.Context, e *scheduler.Event) error {
	status := e.Update.Status
	id, state := status.TaskID.Value, status.GetState()
	switch state {
	case mesos.TASK_STAGING, mesos.TASK_STARTING, mesos.TASK_RUNNING:
		f.running[id] = true
		return nil
	case mesos.TASK_FINISHED:
		f.finished[id] = true
	default:
		if f.finished[id] && status.GetReason() != mesos.REASON_RECONCILIATION {
			log.Fatalf("BAD: %s finished, and is %s now", id, state)
		}
		log.Printf("%s: %s (%s) %s", id, state, status.GetReason(), status.GetMessage())
	}
	delete(f.running, id)
	f.finish(ctx)
	return nil
}
