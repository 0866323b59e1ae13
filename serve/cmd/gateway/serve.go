// The parts of a gateway, how they are connected, and when they start and end. Outside the proof.

package main

import (
	"context"
	"crypto/tls"
	"errors"
	"fmt"
	"log"
	"net"
	"net/http"
	"os"
	"os/exec"
	"os/signal"
	"path/filepath"
	"sync"
	"syscall"
	"time"

	"github.com/coreos/go-systemd/daemon"

	"gateway/internal/allocator"
	"gateway/internal/api"
	"gateway/internal/archive"
	"gateway/internal/auth"
	"gateway/internal/disk"
	"gateway/internal/etcd"
	"gateway/internal/limit"
	"gateway/internal/members"
	"gateway/internal/memory"
	"gateway/internal/mesos/operator"
	mesosserver "gateway/internal/mesos/server"
	"gateway/internal/metrics"
	"gateway/internal/oplog"
	"gateway/internal/periodic"
	"gateway/internal/registry"
	"gateway/internal/registry/mesos"
	"gateway/internal/session"
	"gateway/internal/version"
)

const (
	endTime     = 5 * time.Second // within which the process ends after SIGTERM
	largeBodies = 4               // that are handled at once
	committers  = 2               // transactions under way at once
)

// openData creates the data folder, locks it against a second gateway, and creates a token with all rights if there is none yet.
func (o *options) openData() error {
	if err := disk.CheckOwner(o.data); err != nil {
		return fmt.Errorf("the data folder: %w", err)
	}
	wasOpen, err := disk.PrivateFolder(o.data)
	if err != nil {
		return fmt.Errorf("the data folder: %w", err)
	}
	if wasOpen {
		log.Printf("%s: other users could read it; it is private now", o.data)
	}
	if _, err := disk.TryLock(filepath.Join(o.data, "lock")); errors.Is(err, disk.ErrLocked) { // it ends with the process
		return fmt.Errorf("the data folder %s: another gateway uses it", o.data)
	} else if err != nil {
		return fmt.Errorf("the data folder: %w", err)
	}
	if _, err := os.Stat(o.tokens); !errors.Is(err, os.ErrNotExist) || filepath.Dir(o.tokens) != filepath.Clean(o.data) {
		return err
	}
	token, err := auth.AddCaller(o.tokens, "admin", []string{"admin"}, time.Time{})
	if err != nil {
		return err
	}
	log.Printf("created %s/admin.token, a token with all rights", o.data)
	return disk.WriteFile(filepath.Join(o.data, "admin.token"), []byte(token+"\n"))
}

// gateway is a running service.
type gateway struct {
	*options
	server  *api.Server
	metrics *metrics.Metrics
	ends    chan error // why a part cannot continue

	mu          sync.Mutex
	certificate *tls.Certificate
}

// serve runs the gateway until the context ends, or one of its parts cannot continue.
func (o *options) serve(ctx context.Context) error {
	if err := o.openData(); err != nil {
		return err
	}
	callers, err := auth.ReadCallers(o.tokens)
	if err != nil {
		return err
	}
	if o.passwordFile != "" {
		if o.etcd.Password, err = readPassword(o.passwordFile); err != nil {
			return fmt.Errorf("-etcd-password-file: %w", err)
		}
	}
	journal, err := allocator.OpenJournal(o.data)
	if err != nil {
		return err
	}
	m := metrics.New()
	g := &gateway{options: o, metrics: m, ends: make(chan error, 8), server: api.New(m, limit.New(o.limits), limit.NewSlots(largeBodies, 10*time.Second))}
	g.setCallers(callers)
	g.addEarlyGauges()
	closeServer, err := g.listen()
	if err != nil {
		return err
	}
	parts, stop := context.WithCancel(context.Background())
	closed := make(chan struct{})
	go func() {
		defer close(closed)
		g.runParts(parts, journal)
	}()
	go g.reload(parts)
	go memory.Run(parts)
	daemon.SdNotify(true, daemon.SdNotifyReady) // it listens, and its files and tokens are right: systemctl start returns
	select {
	case err = <-g.ends:
	case <-ctx.Done():
	}
	time.AfterFunc(endTime-500*time.Millisecond, func() {
		log.Print("some parts of the gateway did not end in time")
		os.Exit(1)
	})
	g.server.EndStreams()
	closeServer()
	stop()
	<-closed
	if marked := journal.Mark(); err == nil {
		err = marked
	}
	if saved := journal.Settings.Save(); err == nil {
		err = saved
	}
	return err
}

// listen starts to answer, with 503 as long as there is no service.
func (g *gateway) listen() (closeServer func(), err error) {
	listener, err := net.Listen("tcp", g.options.listen)
	if err != nil {
		return nil, err
	}
	server := g.server.HTTPServer(func(*tls.ClientHelloInfo) (*tls.Certificate, error) {
		g.mu.Lock()
		defer g.mu.Unlock()
		return g.certificate, nil
	})
	if g.cert != "" {
		if err := g.readCertificate(); err != nil {
			return nil, err
		}
		if g.http2 {
			err = g.server.AddHTTP2(server)
		}
		if err != nil {
			return nil, err
		}
		listener = tls.NewListener(listener, server.TLSConfig)
	}
	go func() {
		if err := server.Serve(listener); !errors.Is(err, http.ErrServerClosed) {
			g.ends <- err
		}
	}()
	log.Printf("listening on %s", listener.Addr())
	return func() {
		ctx, cancel := context.WithTimeout(context.Background(), time.Second)
		defer cancel()
		server.Shutdown(ctx)
	}, nil
}

func (g *gateway) readCertificate() error {
	certificate, err := tls.LoadX509KeyPair(g.cert, g.key)
	if err != nil {
		return fmt.Errorf("the certificate: %w", err)
	}
	g.mu.Lock()
	defer g.mu.Unlock()
	g.certificate = &certificate
	return nil
}

// reload reads tokens and certificates again at SIGHUP. If a file is wrong, nothing changes.
func (g *gateway) reload(ctx context.Context) {
	hangups := make(chan os.Signal, 1)
	signal.Notify(hangups, syscall.SIGHUP)
	for {
		select {
		case <-hangups:
		case <-ctx.Done():
			return
		}
		if g.cert != "" {
			if err := g.readCertificate(); err != nil {
				log.Printf("the old certificate stays in use: %v", err)
			}
		}
		callers, err := auth.ReadCallers(g.tokens)
		if err != nil {
			log.Printf("the old tokens stay in use: %v", err)
			continue
		}
		g.setCallers(callers)
		log.Printf("read %d tokens", callers.Len())
	}
}

func (g *gateway) setCallers(callers *auth.Callers) {
	g.server.SetCallers(callers)
	g.metrics.SetTokens(callers.List())
}

// runParts runs all parts of the gateway except the HTTP server, until the context ends.
func (g *gateway) runParts(ctx context.Context, journal *allocator.Journal) {
	cluster, err := etcd.Open(ctx, g.etcd)
	if err != nil {
		g.ends <- err
		return
	}
	defer cluster.Close()
	if !g.waitFor(ctx, cluster) {
		return
	}
	clock := oplog.NewClock(cluster, g.prefix, g.etcd.Name, g.bound, g.etcd.IsAlone())
	list := oplog.New(cluster, g.prefix, clock, oplog.NewSpace(cluster, g.etcd.Quota), g.maxKept)
	list.Kept.SetFolder(g.data)
	if !g.prepare(ctx, list) {
		return
	}
	service, run := g.build(list, journal)
	g.server.SetService(service)
	run(ctx)
}

// prepare makes the list have this gateway's format, as soon as etcd answers.
func (g *gateway) prepare(ctx context.Context, list *oplog.Log) bool {
	var logged time.Time
	for ctx.Err() == nil {
		err := list.Prepare(ctx, g.data, g.etcd.IsAlone())
		if err == nil {
			return true
		}
		if errors.Is(err, oplog.ErrOlderGateway) || oplog.IsFatal(err) {
			g.ends <- err
			return false
		}
		g.server.SetWaiting(fmt.Sprintf("the list cannot be read: %v", err))
		if time.Since(logged) > 10*time.Second && ctx.Err() == nil {
			logged = time.Now()
			log.Printf("the list cannot be read: %v", err)
		}
		select {
		case <-time.After(500 * time.Millisecond):
		case <-ctx.Done():
		}
	}
	return false
}

// waitFor waits until the embedded member works.
func (g *gateway) waitFor(ctx context.Context, cluster *etcd.Cluster) bool {
	for problem := cluster.Problem(); problem != ""; problem = cluster.Problem() {
		g.server.SetWaiting(problem)
		select {
		case <-time.After(100 * time.Millisecond):
		case <-ctx.Done():
			return false
		}
	}
	return ctx.Err() == nil
}

// newArchiver returns the archiver, or nil if there is no archive.
func (g *gateway) newArchiver() *archive.Archiver {
	if g.archive.Folder == "" {
		return nil
	}
	return archive.New(g.archive)
}

// build creates the parts and connects them. The function that it returns runs them until a context ends.
func (g *gateway) build(list *oplog.Log, journal *allocator.Journal) (*api.Service, func(context.Context)) {
	streams := mesosserver.NewStreams()
	mesosState := mesos.New(streams.Publish)
	state := registry.New(g.metrics, mesosState)
	config := g.allocator
	config.SnapshotBytes = list.Space.SnapshotBytes()
	archiver := g.newArchiver()
	if archiver != nil {
		config.Archive = archiver
	}
	a := allocator.New(config, list, journal, state, func(err error) { g.ends <- err })
	if archiver != nil {
		archiver.SetSource(a.Source())
	}
	questions := allocator.NewQuestions(a)
	mayAppend := func() error {
		if err := g.server.Healthy(); err != nil {
			return err
		}
		return disk.CheckFree(g.data)
	}
	sessions := session.New(session.Config{Rate: g.removalRate, Burst: 10, Alone: g.etcd.IsAlone(), Timeouts: map[string]time.Duration{
		registry.Agents: g.agentTimeout, session.Removals: g.agentRemoval, registry.Frameworks: g.frameworkTimeout}}, list, state, mayAppend)
	runner := periodic.New(periodic.Config{Cycle: g.cycle, OfferTimeout: g.offerTimeout, Window: g.window}, list, a, state, mayAppend)
	service := &api.Service{Name: g.etcd.Name, Version: version.Number, Drf: digestOf(g.drf), Started: time.Now(), Folder: g.data, Window: g.window, Log: list, Journal: journal, Allocator: a, Questions: questions, Registry: state, Sessions: sessions}
	service.Members = members.New(list.Cluster(), list.Path("members/"), g.etcd.Name, service.Report, list.Clock.Live)
	list.KeepSenders, service.Archive = service.Members.AllReport, archiver
	mesosConfig := g.mesos
	mesosConfig.Name, mesosConfig.Folder, mesosConfig.Address, mesosConfig.Alone = g.etcd.Name, g.data, g.options.listen, g.etcd.IsAlone()
	mesosConfig.CanSetFramework = func() bool { return service.Members.AllKnow(allocator.SetFramework) }
	mesosCalls := mesosserver.New(mesosConfig, list, a, state, mesosState, streams, mayAppend)
	service.Mounts = mesosCalls.Mounts()
	service.Details = []api.DetailSource{silentDetails(sessions), mesosCalls.Details}
	operators := operator.New(operator.Config{Flags: g.mesosFlags()}, mesosCalls, mesosState, questions)
	for path, call := range operators.Mounts() {
		service.Mounts[path] = call
	}
	g.addGauges(service)
	return service, func(ctx context.Context) {
		runs := []func(context.Context){list.Clock.Run, list.Space.Run, sessions.Run, runner.Run, questions.Run, mesosCalls.Run, service.Members.Run,
			func(ctx context.Context) { markEachSecond(ctx, journal) },
			func(ctx context.Context) {
				if err := a.Run(ctx); err != nil {
					g.ends <- err
				}
			}}
		if archiver != nil {
			runs = append(runs, archiver.Run)
		}
		for n := 0; n < committers; n++ {
			runs = append(runs, list.Run)
		}
		if g.cycle > 0 {
			runs = append(runs, runner.RunCycles)
		}
		var group sync.WaitGroup
		for _, run := range runs {
			group.Add(1)
			go func(run func(context.Context)) {
				defer group.Done()
				run(ctx)
			}(run)
		}
		group.Wait()
	}
}

// silentDetails returns a source of rows for the agents that are silent.
func silentDetails(sessions *session.Manager) api.DetailSource {
	return func(ctx context.Context) (details []api.Detail, err error) {
		silent, err := sessions.Silent(ctx)
		for _, one := range silent {
			details = append(details, api.Detail{Row: "silent", Agent: one.Agent, Since: one.Since})
		}
		return details, err
	}
}

// markEachSecond makes durable, each second, how much of the journal was answered, and from time to time which callers made the current settings.
func markEachSecond(ctx context.Context, journal *allocator.Journal) {
	for second := 1; ; second++ {
		select {
		case <-time.After(time.Second):
		case <-ctx.Done():
			return
		}
		if err := journal.Mark(); err != nil {
			log.Print(err)
		}
		if second%10 != 0 {
			continue
		}
		if err := journal.Settings.Save(); err != nil {
			log.Printf("the settings cannot be written: %v", err)
		}
	}
}

// digestOf returns the SHA-256 of a program, or an empty text where it cannot be read.
func digestOf(program string) string {
	path, err := exec.LookPath(program)
	if err != nil {
		return ""
	}
	text, err := os.ReadFile(path)
	if err != nil {
		return ""
	}
	return disk.Digest(text)
}
