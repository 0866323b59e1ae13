// Tests of finding the process at the other end of a connection. Outside the proof.

package agent

import (
	"net"
	"os"
	"os/exec"
	"syscall"
	"testing"
)

// connect connects to a port of this machine, by a socket of IPv4, or by one of IPv6 as some programs do.
func connect(t *testing.T, family, port int) {
	t.Helper()
	socket, err := syscall.Socket(family, syscall.SOCK_STREAM, 0)
	if err != nil {
		t.Skip(err)
	}
	t.Cleanup(func() { syscall.Close(socket) })
	var to syscall.Sockaddr = &syscall.SockaddrInet4{Port: port, Addr: [4]byte{127, 0, 0, 1}}
	if family == syscall.AF_INET6 {
		to = &syscall.SockaddrInet6{Port: port, Addr: [16]byte{10: 0xff, 11: 0xff, 12: 127, 15: 1}}
	}
	if err := syscall.Connect(socket, to); err != nil {
		t.Fatal(err)
	}
}

func TestPeers(t *testing.T) {
	listener, err := net.Listen("tcp4", "127.0.0.1:0")
	if err != nil {
		t.Fatal(err)
	}
	defer listener.Close()
	other := exec.Command("sleep", "1000")
	if err := other.Start(); err != nil {
		t.Fatal(err)
	}
	defer other.Wait()
	defer other.Process.Kill()
	for _, family := range []int{syscall.AF_INET, syscall.AF_INET6} {
		connect(t, family, listener.Addr().(*net.TCPAddr).Port)
		conn, err := listener.Accept()
		if err != nil {
			t.Fatal(err)
		}
		defer conn.Close()
		if !isPeer(conn, os.Getppid()) { // this process is its child
			t.Errorf("family %d: the own end of a connection was not found", family)
		}
		for _, pid := range []int{other.Process.Pid, 0, 1 << 22} {
			if isPeer(conn, pid) {
				t.Errorf("family %d: process %d has this connection", family, pid)
			}
		}
	}
}

func TestDescendants(t *testing.T) {
	command := exec.Command("sh", "-c", "sh -c 'echo ready; sleep 1000; true'; true")
	out, err := command.StdoutPipe()
	if err != nil {
		t.Fatal(err)
	}
	command.SysProcAttr = &syscall.SysProcAttr{Setpgid: true}
	if err := command.Start(); err != nil {
		t.Fatal(err)
	}
	defer command.Wait()
	defer syscall.Kill(-command.Process.Pid, syscall.SIGKILL)
	out.Read(make([]byte, 6))
	found := map[int]bool{}
	for _, pid := range descendants(os.Getpid()) {
		found[pid] = true
	}
	below := descendants(command.Process.Pid)
	if len(below) == 0 || !found[command.Process.Pid] || !found[below[0]] || found[os.Getpid()] || found[1] {
		t.Errorf("%v below this process, %v below %d", found, below, command.Process.Pid)
	}
	if about, is := readStat(command.Process.Pid); !is || about.parent != os.Getpid() || about.isZombie {
		t.Errorf("%+v", about)
	}
}
