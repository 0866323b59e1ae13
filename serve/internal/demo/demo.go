// Package demo, outside the proof, starts a service with a simulated cluster, for people who want to try the service. At its end it removes
// everything.
package demo

import (
	"bufio"
	"bytes"
	"context"
	"errors"
	"fmt"
	"io"
	"net"
	"os"
	"os/exec"
	"path/filepath"
	"runtime"
	"strings"
	"syscall"
	"time"
)

const (
	startTime = 2 * time.Minute // within which the service must be ready
	endTime   = 10 * time.Second
	fastRound = 8 // cycles before the address is printed, so that there is something to see
)

// Options say what is started, and where.
type Options struct {
	Gateway string // the program
	Drf     string // the allocator's program
	Listen  string
	In      io.Reader // a line asks for another link
	Out     io.Writer
}

// Run runs a service until the context ends. Errors: the address is not of the loopback or is in use, or the service does not start or ends.
func Run(ctx context.Context, o Options) (err error) {
	runtime.LockOSThread() // the gateway ends with the thread that started it
	defer runtime.UnlockOSThread()
	address, err := free(o.Listen)
	if err != nil {
		return err
	}
	folder, err := os.MkdirTemp("", "durzhanok-demo-")
	if err != nil {
		return fmt.Errorf("the temporary folder: %w", err)
	}
	defer func() {
		if removed := os.RemoveAll(folder); removed != nil && err == nil {
			err = fmt.Errorf("the temporary folder: %w", removed)
		}
	}()
	g, err := start(o, address, folder)
	if err != nil {
		return err
	}
	defer g.end()
	ctx, cancel := context.WithCancel(ctx)
	defer cancel()
	go func() {
		<-g.ended
		cancel()
	}()
	if err = show(ctx, o, g, address); ctx.Err() == nil {
		return err
	}
	select {
	case <-g.ended:
		return fmt.Errorf("the service ended: %s", g.lastLines())
	default:
		return nil
	}
}

// free returns an address of the loopback that nobody listens on.
func free(listen string) (string, error) {
	host, port, err := net.SplitHostPort(listen)
	if ip := net.ParseIP(host); err != nil || host != "localhost" && (ip == nil || !ip.IsLoopback()) {
		return "", fmt.Errorf("-listen %q: expected an address of the loopback, such as 127.0.0.1:8450", listen)
	}
	listener, err := net.Listen("tcp", listen)
	if errors.Is(err, syscall.EADDRINUSE) {
		return "", fmt.Errorf("port %s of %s is in use: give another one, as in -listen 127.0.0.1:8451, or -listen 127.0.0.1:0 for any", port, host)
	}
	if err != nil {
		return "", fmt.Errorf("-listen %q: %w", listen, err)
	}
	defer listener.Close()
	return listener.Addr().String(), nil
}

// gateway is the service's process. It has a process group of its own: Ctrl-C reaches the demo alone, which then ends it.
type gateway struct {
	command *exec.Cmd
	folder  string
	ended   chan struct{}
}

func start(o Options, address, folder string) (*gateway, error) {
	log, err := os.Create(filepath.Join(folder, "gateway.log"))
	if err != nil {
		return nil, err
	}
	defer log.Close()
	command := exec.Command(o.Gateway, "-data", filepath.Join(folder, "data"), "-drf", o.Drf, "-listen", address, "-cycle", "0", "-agent-timeout", "30s")
	command.Stdout, command.Stderr = log, log
	command.SysProcAttr = &syscall.SysProcAttr{Setpgid: true, Pdeathsig: syscall.SIGTERM}
	if err := command.Start(); err != nil {
		return nil, fmt.Errorf("the gateway: %w", err)
	}
	g := &gateway{command, folder, make(chan struct{})}
	go func() {
		command.Wait()
		close(g.ended)
	}()
	return g, nil
}

// end ends the gateway and whatever it started.
func (g *gateway) end() {
	g.command.Process.Signal(syscall.SIGTERM)
	select {
	case <-g.ended:
	case <-time.After(endTime):
	}
	syscall.Kill(-g.command.Process.Pid, syscall.SIGKILL)
	<-g.ended
}

// lastLines returns the end of the gateway's log.
func (g *gateway) lastLines() string {
	text, _ := os.ReadFile(filepath.Join(g.folder, "gateway.log"))
	lines := strings.Split(strings.TrimSpace(string(text)), "\n")
	if len(lines) > 3 {
		lines = lines[len(lines)-3:]
	}
	return strings.Join(lines, "; ")
}

// show fills the cluster, prints the address, and lets time pass until the context ends.
func show(ctx context.Context, o Options, g *gateway, address string) error {
	c := newClient(address, "")
	for until := time.Now().Add(startTime); !c.isReady(ctx); time.Sleep(100 * time.Millisecond) {
		if ctx.Err() != nil {
			return ctx.Err()
		}
		if time.Now().After(until) {
			return fmt.Errorf("the service is not ready after %v: %s", startTime, g.lastLines())
		}
	}
	token, err := os.ReadFile(filepath.Join(g.folder, "data", "admin.token"))
	if err != nil {
		return err
	}
	c.token = string(bytes.TrimSpace(token))
	s := &simulation{client: c, cluster: NewCluster(1), gone: map[string]bool{}}
	if err := s.fill(ctx); err != nil {
		return err
	}
	fmt.Fprintf(o.Out, "The service runs at http://%s with a simulated cluster of %d agents and %d frameworks.\n", address, racks*perRack, len(teams))
	if err := link(ctx, o.Out, c); err != nil {
		return err
	}
	fmt.Fprintf(o.Out, "Press Enter for another link, and Ctrl-C to end: then everything is removed. For curl, the token is in\n%s\n", filepath.Join(g.folder, "data", "admin.token"))
	go linkAgain(ctx, o, c)
	return s.run(ctx)
}

// link prints an address that signs a browser in.
func link(ctx context.Context, out io.Writer, c *client) error {
	code, err := c.code(ctx)
	if err == nil {
		fmt.Fprintf(out, "\n    %s/#once=%s\n\nThis link signs a browser in once, within two minutes.\n", c.url, code)
	}
	return err
}

func linkAgain(ctx context.Context, o Options, c *client) {
	if o.In == nil {
		return
	}
	for in := bufio.NewScanner(o.In); in.Scan() && ctx.Err() == nil; {
		if err := link(ctx, o.Out, c); err != nil && ctx.Err() == nil {
			fmt.Fprintf(o.Out, "no link: %v\n", err)
		}
	}
}

// simulation lets the cluster's time pass.
type simulation struct {
	client  *client
	cluster *Cluster
	now     time.Duration
	gone    map[string]bool // agents that an operator removed
}

// fill registers everything, and lets some minutes pass at once.
func (s *simulation) fill(ctx context.Context) error {
	replies, err := s.client.send(ctx, setUp()...)
	if err != nil {
		return err
	}
	for k, reply := range replies {
		if reply.Refused > 0 {
			return fmt.Errorf("event %d of the cluster was refused: %s", k+1, reply.Name)
		}
	}
	for round := 0; round < fastRound; round++ {
		s.beat(ctx, round)
		for k := 0; k < 5; k++ {
			if err := s.pass(ctx, 2*time.Second); err != nil {
				return err
			}
		}
	}
	return nil
}

// run lets time pass as it does, until the context ends.
func (s *simulation) run(ctx context.Context) error {
	failed := 0
	for round := fastRound; ; round++ {
		select {
		case <-ctx.Done():
			return nil
		case <-time.After(time.Second):
		}
		s.beat(ctx, round)
		if err := s.pass(ctx, time.Second); err != nil && ctx.Err() == nil {
			if failed++; failed > 30 {
				return err
			}
			continue
		}
		failed = 0
	}
}

// beat sends the heartbeats of a round.
func (s *simulation) beat(ctx context.Context, round int) {
	for _, name := range beating(round, s.gone) {
		if !s.client.alive(ctx, name) && ctx.Err() == nil {
			s.gone[name] = true
		}
	}
}

// pass advances the time, and sends the events that are due by then, followed by a cycle.
func (s *simulation) pass(ctx context.Context, span time.Duration) error {
	s.now += span
	events := append(s.cluster.Due(s.now), Event{"event": "cycle"})
	replies, err := s.client.send(ctx, events...)
	if err != nil {
		return err
	}
	for k, reply := range replies {
		if reply.Refused > 0 {
			s.cluster.Lost(events[k])
		}
		s.cluster.Take(reply.Offers, s.now)
	}
	return nil
}
