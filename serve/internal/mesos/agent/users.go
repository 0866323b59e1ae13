// The users as which tasks run, if the agent is root. Outside the proof.

package agent

import (
	"bytes"
	"context"
	"errors"
	"fmt"
	"io"
	"os"
	"os/exec"
	"os/user"
	"path/filepath"
	"strconv"
	"strings"
	"syscall"

	"gateway/internal/mesos/codec"
)

// account is a user of this machine.
type account struct {
	Name   string   `json:"name"`
	UID    uint32   `json:"uid"`
	GID    uint32   `json:"gid"`
	Groups []uint32 `json:"groups"`
}

// findAccount looks a user up in the files of this machine.
func findAccount(name string) (*account, error) {
	found, err := user.Lookup(name)
	if err != nil {
		return nil, fmt.Errorf("Failed to get user information for '%s': %w", name, err)
	}
	groups, err := found.GroupIds()
	if err != nil {
		return nil, fmt.Errorf("Failed to get groups of user '%s': %w", name, err)
	}
	a := &account{Name: name}
	for _, one := range append([]string{found.Uid, found.Gid}, groups...) {
		number, err := strconv.ParseUint(one, 10, 32)
		if err != nil {
			return nil, err
		}
		a.Groups = append(a.Groups, uint32(number))
	}
	a.UID, a.GID, a.Groups = a.Groups[0], a.Groups[1], a.Groups[2:]
	return a, nil
}

// credential returns the credential with which a process of a user runs, or nil for the agent's own user.
func (a *account) credential() *syscall.Credential {
	if a == nil {
		return nil
	}
	return &syscall.Credential{Uid: a.UID, Gid: a.GID, Groups: a.Groups}
}

// accountFor returns the user as which a process is to run, and gives it the sandbox; or nil if the agent does not change users. The gateway only
// names users as which the framework may run tasks.
func (a *Agent) accountFor(name, sandbox string) (*account, error) {
	if !a.config.SwitchUser {
		return nil, nil
	}
	if name == "" {
		return nil, errors.New("the gateway named no user that the framework may run tasks as")
	}
	found, err := findAccount(name)
	if err != nil {
		return nil, err
	}
	for _, folder := range []string{a.config.Folder, filepath.Dir(filepath.Dir(sandbox)), filepath.Dir(sandbox)} {
		if err := os.Chmod(folder, 0o711); err != nil { // its files are readable by the agent alone
			return nil, err
		}
	}
	if err := os.Chmod(sandbox, 0o700); err != nil {
		return nil, err
	}
	return found, os.Chown(sandbox, int(found.UID), int(found.GID))
}

// openOutput opens a file for output in a sandbox. The owner of the sandbox may have put a link there, which is not followed.
func (p *process) openOutput(path string) (*os.File, error) {
	file, err := os.OpenFile(path, os.O_CREATE|os.O_APPEND|os.O_WRONLY|syscall.O_NOFOLLOW|syscall.O_NONBLOCK, 0o644)
	if err != nil || p.User == nil {
		return file, err
	}
	about, err := file.Stat()
	if err == nil {
		stat := about.Sys().(*syscall.Stat_t)
		if !about.Mode().IsRegular() || stat.Nlink != 1 {
			err = fmt.Errorf("%s is not a regular file with a single link", path)
		}
	}
	if err == nil {
		err = file.Chown(int(p.User.UID), int(p.User.GID))
	}
	if err != nil {
		file.Close()
		return nil, err
	}
	return file, nil
}

// Fetch fetches the URIs of the command that it reads, into a folder. If the command runs as another user, Fetch is a separate process, so that it
// has only the permissions of that user.
func Fetch(ctx context.Context, sandbox string, in io.Reader) error {
	text, err := io.ReadAll(in)
	if err != nil {
		return err
	}
	command, err := codec.ReadProtobuf("mesos.CommandInfo", text)
	if err != nil {
		return err
	}
	return fetch(ctx, sandbox, command)
}

// fetch fetches the URIs of the process, as its user.
func (p *process) fetch(ctx context.Context, sandbox string) error {
	command := codec.MustReadProtobuf("mesos.CommandInfo", p.Command)
	if p.User == nil || len(command.List("uris")) == 0 {
		return fetch(ctx, sandbox, command)
	}
	var said bytes.Buffer
	fetcher := exec.CommandContext(ctx, "/proc/self/exe", "fetch", sandbox) // which is found whoever may see its folder
	fetcher.Stdin, fetcher.Stderr, fetcher.Dir = bytes.NewReader(p.Command), &said, sandbox
	fetcher.Env = []string{"PATH=" + os.Getenv("PATH")}
	for _, name := range []string{"http_proxy", "https_proxy", "no_proxy", "SSL_CERT_FILE", "SSL_CERT_DIR"} {
		if value, is := os.LookupEnv(name); is {
			fetcher.Env = append(fetcher.Env, name+"="+value)
		}
	}
	fetcher.SysProcAttr = &syscall.SysProcAttr{Credential: p.User.credential()}
	if err := fetcher.Run(); err != nil {
		return fmt.Errorf("%s (%w)", strings.TrimPrefix(strings.TrimSpace(said.String()), "durzhanok-agent: "), err)
	}
	return nil
}

// CheckUsers returns why an agent cannot run tasks as other users, or nil.
func CheckUsers(tokenFile string) error {
	if os.Getuid() != 0 {
		return errors.New("-switch-user: only root can run tasks as other users")
	}
	about, err := os.Stat(tokenFile)
	if err != nil {
		return err
	}
	if about.Mode().Perm()&0o077 != 0 {
		return fmt.Errorf("-token-file: tasks can read %s: run chmod 600 %s, or start with -switch-user=false", tokenFile, tokenFile)
	}
	return nil
}
