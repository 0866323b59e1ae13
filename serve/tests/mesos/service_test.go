// Gateways, agents and schedulers as processes, for tests. Outside the proof.

package mesos

import (
	"encoding/json"
	"fmt"
	"io"
	"net"
	"net/http"
	"os"
	"os/exec"
	"path/filepath"
	"strings"
	"sync"
	"syscall"
	"testing"
	"time"
)

var programs struct {
	sync.Once
	folder string
	err    error
}

func TestMain(m *testing.M) {
	code := m.Run()
	os.RemoveAll(programs.folder)
	os.Exit(code)
}

// build builds the programs once.
func build(t *testing.T) string {
	t.Helper()
	if os.Getenv("DRF") == "" {
		t.Skip("DRF is not set to the allocator's program")
	}
	programs.Do(func() {
		if programs.folder, programs.err = os.MkdirTemp("", "mesos"); programs.err != nil {
			return
		}
		for name, source := range map[string]string{"gateway": "gateway/cmd/gateway", "agent": "gateway/cmd/agent", "scheduler": "gateway/tests/mesos/scheduler", "executor": "gateway/tests/mesos/executor"} {
			if text, err := exec.Command("go", "build", "-o", filepath.Join(programs.folder, name), source).CombinedOutput(); err != nil {
				programs.err = fmt.Errorf("%s: %v: %s", name, err, text)
			}
		}
	})
	if programs.err != nil {
		t.Fatal(programs.err)
	}
	return programs.folder
}

// process is a program that a test may kill and start again.
type process struct {
	t       *testing.T
	name    string
	command []string
	folder  string
	running *exec.Cmd
	done    chan error
}

func (p *process) start() {
	p.t.Helper()
	out, err := os.OpenFile(filepath.Join(p.folder, p.name+".log"), os.O_CREATE|os.O_APPEND|os.O_WRONLY, 0o600)
	if err != nil {
		p.t.Fatal(err)
	}
	defer out.Close()
	p.running, p.done = exec.Command(p.command[0], p.command[1:]...), make(chan error, 1)
	p.running.Stdout, p.running.Stderr, p.running.Dir = out, out, p.folder
	p.running.SysProcAttr = &syscall.SysProcAttr{Pdeathsig: syscall.SIGKILL}
	if err := p.running.Start(); err != nil {
		p.t.Fatal(err)
	}
	go func(c *exec.Cmd, done chan<- error) { done <- c.Wait() }(p.running, p.done)
}

func (p *process) kill() {
	p.running.Process.Kill()
	<-p.done
	p.done <- nil
}

func (p *process) log() string {
	text, _ := os.ReadFile(filepath.Join(p.folder, p.name+".log"))
	return string(text)
}

// service is one or three gateways, and agents.
type service struct {
	t        *testing.T
	programs string
	folder   string
	token    string
	etcd     *process
	gateways []*process
	urls     []string
	agents   []*process
}

func freePort(t *testing.T) int {
	listener, err := net.Listen("tcp", "127.0.0.1:0")
	if err != nil {
		t.Fatal(err)
	}
	defer listener.Close()
	return listener.Addr().(*net.TCPAddr).Port
}

// newService starts gateways: one with an etcd of its own, or several over one etcd.
func newService(t *testing.T, gateways, agents int, flags ...string) *service {
	t.Helper()
	s := &service{t: t, programs: build(t), folder: t.TempDir()}
	store := []string(nil)
	if gateways > 1 {
		if _, err := exec.LookPath("etcd"); err != nil {
			t.Skip("etcd is not installed: apt-get install etcd-server")
		}
		client, peer := fmt.Sprintf("http://127.0.0.1:%d", freePort(t)), fmt.Sprintf("http://127.0.0.1:%d", freePort(t))
		s.etcd = s.process("etcd", "etcd", "--data-dir", filepath.Join(s.folder, "etcd"), "--listen-client-urls", client, "--advertise-client-urls", client,
			"--listen-peer-urls", peer, "--initial-advertise-peer-urls", peer, "--initial-cluster", "default="+peer, "--max-request-bytes", "10485760")
		s.etcd.start()
		store = []string{"-etcd", client}
	}
	for k := 0; k < gateways; k++ {
		address, name := fmt.Sprintf("127.0.0.1:%d", freePort(t)), fmt.Sprintf("g%d", k)
		arguments := append([]string{filepath.Join(s.programs, "gateway"), "-data", filepath.Join(s.folder, name), "-name", name, "-drf", os.Getenv("DRF"), "-listen", address,
			"-tokens", filepath.Join(s.folder, "g0", "tokens.json"), "-cycle", "200ms"}, append(store, flags...)...)
		s.gateways, s.urls = append(s.gateways, s.process(name, arguments...)), append(s.urls, "http://"+address)
		s.gateways[k].start()
		if k == 0 {
			s.token = s.readToken()
		}
	}
	for k := range s.urls {
		s.waitReady(k)
	}
	for k := 0; k < agents; k++ {
		name := fmt.Sprintf("a%d", k)
		s.agents = append(s.agents, s.process(name, filepath.Join(s.programs, "agent"), "-gateways", strings.Join(s.urls, ","), "-work", name, "-name", name,
			"-token-file", filepath.Join(s.folder, "g0", "admin.token"), "-resources", "cpus:2;mem:1024", "-cgroups", "none"))
		s.agents[k].start()
	}
	t.Cleanup(func() {
		for _, p := range append(append([]*process(nil), s.gateways...), s.agents...) {
			if strings.Contains(p.log(), "DATA RACE") { // with GOFLAGS=-race
				t.Errorf("%s: %s", p.name, p.log())
			}
		}
		if t.Failed() {
			for _, p := range append(append([]*process(nil), s.gateways...), s.agents...) {
				t.Logf("%s: %s", p.name, tail(p.log()))
			}
			t.Logf("executors: %s", tail(s.executorLog()))
		}
	})
	return s
}

func tail(text string) string {
	if len(text) > 3000 {
		return text[len(text)-3000:]
	}
	return text
}

func (s *service) process(name string, command ...string) *process {
	p := &process{t: s.t, name: name, command: command, folder: s.folder}
	s.t.Cleanup(func() {
		if p.running != nil {
			p.running.Process.Kill()
			<-p.done
		}
	})
	return p
}

func (s *service) readToken() string {
	for end := time.Now().Add(20 * time.Second); ; time.Sleep(20 * time.Millisecond) {
		text, err := os.ReadFile(filepath.Join(s.folder, "g0", "admin.token"))
		if err == nil && len(text) > 0 {
			return strings.TrimSpace(string(text))
		}
		if time.Now().After(end) {
			s.t.Fatalf("there is no token: %s", s.gateways[0].log())
		}
	}
}

func (s *service) waitReady(k int) {
	s.t.Helper()
	for end := time.Now().Add(60 * time.Second); ; time.Sleep(50 * time.Millisecond) {
		answer, err := http.Get(s.urls[k] + "/healthz")
		if err == nil {
			answer.Body.Close()
			if answer.StatusCode == http.StatusOK {
				return
			}
		}
		if time.Now().After(end) {
			s.t.Fatalf("gateway %d is not ready: %s", k, tail(s.gateways[k].log()))
		}
	}
}

// get asks a gateway.
func (s *service) get(k int, path string) []byte {
	s.t.Helper()
	request, _ := http.NewRequest(http.MethodGet, s.urls[k]+path, nil)
	request.Header.Set("Authorization", "Bearer "+s.token)
	answer, err := http.DefaultClient.Do(request)
	if err != nil {
		s.t.Fatal(err)
	}
	defer answer.Body.Close()
	text, err := io.ReadAll(answer.Body)
	if err != nil || answer.StatusCode != http.StatusOK {
		s.t.Fatalf("%s: %s %s %v", path, answer.Status, text, err)
	}
	return text
}

// held returns the allocator's tasks.
func (s *service) held(k int) (tasks []string) {
	var state struct{ Rows []json.RawMessage }
	text := s.get(k, "/drf/v1/state")
	if err := json.Unmarshal(text, &state); err != nil {
		s.t.Fatal(err, string(text))
	}
	for _, row := range state.Rows {
		if strings.Contains(string(row), `"row":"task"`) {
			tasks = append(tasks, string(row))
		}
	}
	return tasks
}

// scheduler returns a mesos-go scheduler at a gateway.
func (s *service) scheduler(name string, gateway int, flags ...string) *process {
	return s.process(name, append([]string{filepath.Join(s.programs, "scheduler"), "-url", s.urls[gateway] + "/api/v1/scheduler",
		"-token-file", filepath.Join(s.folder, "g0", "admin.token"), "-prefix", name}, flags...)...)
}

// wait waits until a scheduler has ended successfully.
func (p *process) wait() {
	p.t.Helper()
	select {
	case err := <-p.done:
		p.done <- err
		if err != nil {
			p.t.Fatalf("%s: %v: %s", p.name, err, tail(p.log()))
		}
	case <-time.After(4 * time.Minute):
		p.t.Fatalf("%s did not end: %s", p.name, tail(p.log()))
	}
}

// checkJournal checks the replies of the whole journal by the proved program.
func (s *service) checkJournal(k int) {
	s.t.Helper()
	check := exec.Command(os.Getenv("DRF"), "check")
	check.Stdin = strings.NewReader(string(s.get(k, "/drf/v1/journal")))
	if text, err := check.CombinedOutput(); err != nil || !strings.HasPrefix(string(text), "good ") {
		s.t.Errorf("drf check: %v %s", err, text)
	}
}
