// Reads /proc about processes. Outside the proof.

package agent

import (
	"fmt"
	"net"
	"os"
	"path/filepath"
	"strconv"
	"strings"
)

// bootID identifies the current boot of this machine: process numbers are used again after the next one.
func bootID() string {
	text, _ := os.ReadFile("/proc/sys/kernel/random/boot_id")
	return strings.TrimSpace(string(text))
}

// procStat is a process as /proc/PID/stat describes it.
type procStat struct {
	pid, parent, session int
	isZombie             bool
}

// readStat reads what is after the name of a process, which may have any characters: state, parent, group, session.
func readStat(pid int) (procStat, bool) {
	text, err := os.ReadFile(fmt.Sprintf("/proc/%d/stat", pid))
	at := strings.LastIndexByte(string(text), ')')
	if err != nil || at < 0 {
		return procStat{}, false
	}
	fields := strings.Fields(string(text[at+1:]))
	if len(fields) < 4 {
		return procStat{}, false
	}
	about := procStat{pid: pid, isZombie: fields[0] == "Z"}
	about.parent, _ = strconv.Atoi(fields[1])
	about.session, _ = strconv.Atoi(fields[3])
	return about, true
}

// allProcesses returns the processes of this machine.
func allProcesses() (list []procStat) {
	names, _ := filepath.Glob("/proc/[0-9]*")
	for _, name := range names {
		pid, err := strconv.Atoi(filepath.Base(name))
		if err != nil {
			continue
		}
		if about, is := readStat(pid); is {
			list = append(list, about)
		}
	}
	return list
}

func processesOf(is func(procStat) bool) (pids []int) {
	for _, about := range allProcesses() {
		if is(about) && !about.isZombie {
			pids = append(pids, about.pid)
		}
	}
	return pids
}

// descendants returns the processes that a process started, directly and indirectly.
func descendants(pid int) (pids []int) {
	children := map[int][]procStat{}
	for _, about := range allProcesses() {
		children[about.parent] = append(children[about.parent], about)
	}
	for todo := []int{pid}; len(todo) > 0; todo = todo[1:] {
		for _, about := range children[todo[0]] {
			pids, todo = append(pids, about.pid), append(todo, about.pid)
		}
	}
	return pids
}

// isPeer reports whether a process below a supervisor has the other end of a connection on this machine.
func isPeer(conn net.Conn, supervisor int) bool {
	local, isTCP := conn.LocalAddr().(*net.TCPAddr)
	remote, _ := conn.RemoteAddr().(*net.TCPAddr)
	if !isTCP || remote == nil || supervisor == 0 {
		return false
	}
	socket := socketOf(remote, local)
	if socket == "" {
		return false
	}
	for _, pid := range descendants(supervisor) {
		files, _ := filepath.Glob(fmt.Sprintf("/proc/%d/fd/*", pid))
		for _, file := range files {
			if to, err := os.Readlink(file); err == nil && to == socket {
				return true
			}
		}
	}
	return false
}

// socketOf returns the name of the socket of a connection, as links in /proc/PID/fd have it, or nothing. A program may use a socket of IPv6
// for an address of IPv4.
func socketOf(local, remote *net.TCPAddr) string {
	for file, prefix := range map[string]string{"/proc/net/tcp": "", "/proc/net/tcp6": "0000000000000000FFFF0000"} {
		text, _ := os.ReadFile(file)
		for _, line := range strings.Split(string(text), "\n") {
			fields := strings.Fields(line)
			if len(fields) > 9 && fields[1] == prefix+hexOf(local) && fields[2] == prefix+hexOf(remote) && fields[9] != "0" {
				return "socket:[" + fields[9] + "]"
			}
		}
	}
	return ""
}

// hexOf writes an address as /proc/net/tcp does, on a little-endian machine.
func hexOf(address *net.TCPAddr) string {
	ip := address.IP.To4()
	if ip == nil {
		return "-"
	}
	return fmt.Sprintf("%02X%02X%02X%02X:%04X", ip[3], ip[2], ip[1], ip[0], address.Port)
}
