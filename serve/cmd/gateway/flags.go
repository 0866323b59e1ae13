// The flags. Outside the proof.

package main

import (
	"errors"
	"flag"
	"fmt"
	"net"
	"os"
	"path/filepath"
	"strconv"
	"strings"
	"time"

	"gateway/internal/allocator"
	"gateway/internal/archive"
	"gateway/internal/etcd"
	"gateway/internal/limit"
	mesosserver "gateway/internal/mesos/server"
	"gateway/internal/usage"
)

type options struct {
	data, drf, listen, tokens, cert, key, prefix string
	passwordFile                                 string
	http2                                        bool
	etcd                                         etcd.Config
	bound, window                                time.Duration
	cycle, offerTimeout                          time.Duration
	agentTimeout, agentRemoval, frameworkTimeout time.Duration
	removalRate                                  float64
	maxKept                                      int
	allocator                                    allocator.Config
	limits                                       limit.Rates
	mesos                                        mesosserver.Config
	archive                                      archive.Config
	version                                      bool
}

// size is a flag in bytes, such as 256MiB.
type size int64

func (s *size) String() string { return strconv.FormatInt(int64(*s), 10) }

func (s *size) Set(text string) error {
	unit := int64(1)
	for suffix, of := range map[string]int64{"KiB": 1 << 10, "MiB": 1 << 20, "GiB": 1 << 30} {
		if strings.HasSuffix(text, suffix) {
			text, unit = strings.TrimSuffix(text, suffix), of
		}
	}
	number, err := strconv.ParseInt(text, 10, 64)
	if err != nil || number < 0 || number > (1<<62)/unit {
		return errors.New("expected bytes, or a number with KiB, MiB or GiB")
	}
	*s = size(number * unit)
	return nil
}

func readOptions(arguments []string) (*options, error) {
	o, flags := &options{mesos: mesosserver.DefaultConfig()}, flag.NewFlagSet("durzhanok-gateway", flag.ContinueOnError)
	o.etcd.Quota, o.archive.Bytes = 8<<30, 16<<20
	flags.StringVar(&o.data, "data", "durzhanok-data", "folder of the journal, the snapshots and the embedded etcd")
	flags.StringVar(&o.drf, "drf", "drf", "program of the allocator, drf")
	flags.StringVar(&o.listen, "listen", "127.0.0.1:8450", "address for callers")
	flags.StringVar(&o.tokens, "tokens", "", "file of tokens and their rights (DATA/tokens.json)")
	flags.StringVar(&o.cert, "cert", "", "file of the certificates for callers, who then use TLS; read again at SIGHUP")
	flags.StringVar(&o.key, "key", "", "file of the key of -cert")
	flags.BoolVar(&o.http2, "http2", false, "also accept HTTP/2 from callers that use TLS")
	flags.StringVar(&o.etcd.Name, "name", "one", "this gateway's name, which differs from those of the others")
	flags.StringVar(&o.etcd.Members, "members", "", "NAME=URL of each gateway, separated by commas: together they embed one etcd")
	flags.BoolVar(&o.etcd.Joins, "join", false, "join an existing cluster as a new member")
	flags.StringVar(&o.etcd.URLs, "etcd", "", "URLs of an existing etcd to use, separated by commas; none is embedded then")
	flags.StringVar(&o.etcd.User, "etcd-user", "", "with -etcd: the user to connect as")
	flags.StringVar(&o.passwordFile, "etcd-password-file", "", "with -etcd-user: file of the user's password")
	flags.StringVar(&o.etcd.PeerCert, "peer-cert", "", "file of the certificates for etcd's members and clients")
	flags.StringVar(&o.etcd.PeerKey, "peer-key", "", "file of the key of -peer-cert")
	flags.StringVar(&o.etcd.PeerCA, "peer-ca", "", "file of the authorities that certify etcd's members")
	flags.Var((*size)(&o.etcd.Quota), "etcd-quota", "greatest size of etcd's store, such as 8GiB; with -etcd, the value of its --quota-backend-bytes")
	flags.StringVar(&o.prefix, "prefix", "drf/", "prefix of the keys in etcd")
	flags.DurationVar(&o.cycle, "cycle", time.Second, "time between cycles (0: callers send the cycles)")
	flags.DurationVar(&o.bound, "clock-bound", 10*time.Second, "how much this machine's clock may differ from the clocks of the other gateways")
	flags.DurationVar(&o.window, "window", time.Hour, "how long idempotency keys are kept")
	flags.IntVar(&o.maxKept, "max-kept-keys", 2_000_000, "number of kept idempotency keys at which batches with new keys are refused")
	flags.DurationVar(&o.offerTimeout, "offer-timeout", 0, "time after which an offer that nobody answers is rescinded (0: never)")
	flags.DurationVar(&o.agentTimeout, "agent-timeout", 0, "time after the last heartbeat of an agent until it is deactivated (0: never)")
	flags.DurationVar(&o.agentRemoval, "agent-removal", 0, "further time until the agent is removed (0: never)")
	flags.DurationVar(&o.frameworkTimeout, "framework-timeout", 0, "time after the last heartbeat of a framework until it is removed (0: never)")
	flags.Float64Var(&o.removalRate, "removal-rate", 1, "how many silent agents and frameworks are deactivated or removed a second, at most")
	flags.Int64Var(&o.allocator.SnapshotMessages, "save-every", 20_000, "messages after which a snapshot is made")
	flags.DurationVar(&o.allocator.SnapshotApart, "save-apart", time.Minute, "least time between snapshots; replies are kept for this time too")
	flags.Int64Var(&o.allocator.SnapshotMost, "save-most", 20_000, "messages after which a snapshot is made even within -save-apart (0: no bound)")
	flags.Int64Var(&o.allocator.EpochLines, "epoch-every", 4_000_000_000, "lines after which a new epoch begins, at most 4294967295")
	flags.StringVar(&o.archive.Folder, "archive", "", "folder of this gateway's archive of the journal and the audit (none: no archive)")
	flags.DurationVar(&o.archive.Every, "archive-every", time.Hour, "longest time that a segment of the archive covers")
	flags.Var((*size)(&o.archive.Bytes), "archive-segment", "approximate size of a segment of the archive")
	flags.Var((*size)(&o.archive.MaxSize), "archive-size", "size of the archive above which its oldest segments are removed, such as 20GiB (0: no limit)")
	flags.DurationVar(&o.archive.MaxAge, "archive-age", 0, "age of messages above which their segments are removed, such as 2160h (0: no limit)")
	flags.Float64Var(&o.limits.Requests, "limit-requests", 25_000, "requests a second of one caller (0: no limit)")
	flags.Float64Var(&o.limits.Bytes, "limit-bytes", 32<<20, "bytes of events a second of one caller (0: no limit)")
	flags.Float64Var(&o.limits.Lines, "limit-lines", 500_000, "events a second of one caller (0: no limit)")
	flags.IntVar(&o.limits.Streams, "limit-streams", 1000, "open streams of one caller (0: no limit)")
	flags.DurationVar(&o.limits.Burst, "limit-burst", 2*time.Second, "how long a caller may exceed its limits after a silence")
	flags.DurationVar(&o.mesos.AgentGone, "mesos-agent-gone", o.mesos.AgentGone, "how long a durzhanok-agent may be disconnected until it is removed and its tasks are lost")
	flags.DurationVar(&o.mesos.GatewayGrace, "mesos-gateway-grace", o.mesos.GatewayGrace, "how long a Mesos framework may take to reconnect when its gateway ended, if its failover_timeout is less")
	flags.DurationVar(&o.mesos.Silence, "mesos-silence", o.mesos.Silence, "how long the machine of a durzhanok-agent or a Mesos framework may acknowledge nothing until its stream ends")
	flags.IntVar(&o.mesos.MaxFrameworks, "mesos-max-frameworks", o.mesos.MaxFrameworks, "Mesos frameworks of one principal, including disconnected ones (0: no limit)")
	flags.Var((*size)(&o.mesos.MaxBytes), "mesos-max-bytes", "size of the descriptions of live tasks and of the unacknowledged statuses of one principal's Mesos frameworks (0: no limit)")
	flags.DurationVar(&o.mesos.MaxRefuse, "mesos-max-refuse", o.mesos.MaxRefuse, "greatest refuse_seconds of Mesos frameworks")
	flags.BoolVar(&o.version, "version", false, "print the version and exit")
	if err := usage.Parse(flags, arguments, "[FLAG..]", "token add|list|revoke ..", "credentials [FLAG..] FILE [RIGHT..]", "import [FLAG..] FILE", "shadow [FLAG..] URL",
		"verify-archive [FLAG..] FOLDER", "demo [FLAG..]"); err != nil {
		return nil, err
	}
	for _, check := range []struct {
		isWrong bool
		problem string
	}{
		{flags.NArg() > 0, fmt.Sprintf("%q: unknown command or argument; see durzhanok-gateway -help", flags.Arg(0))},
		{(o.cert == "") != (o.key == ""), "-cert and -key: give both or none"},
		{o.http2 && o.cert == "", "-http2: give -cert and -key too"},
		{o.etcd.URLs != "" && o.etcd.Members != "", "-etcd and -members: give one of them"},
		{o.etcd.User != "" && o.etcd.URLs == "", "-etcd-user: give -etcd too"},
		{(o.etcd.User == "") != (o.passwordFile == ""), "-etcd-user and -etcd-password-file: give both or none"},
		{o.bound < 2*time.Second, fmt.Sprintf("-clock-bound %v: expected at least 2s", o.bound)},
		{o.cycle != 0 && o.cycle < 10*time.Millisecond, fmt.Sprintf("-cycle %v: expected 0 or at least 10ms", o.cycle)},
		{o.window < 0, fmt.Sprintf("-window %v: expected at least 0s", o.window)},
		{o.maxKept < 1, fmt.Sprintf("-max-kept-keys %d: expected at least 1", o.maxKept)},
		{o.etcd.Quota < 64<<20, fmt.Sprintf("-etcd-quota %d: expected at least 64MiB", o.etcd.Quota)},
		{o.archive.Every < time.Second || o.archive.MaxAge < 0, "-archive-..: expected at least 1s for -archive-every, and no negative age"},
		{o.archive.Bytes < 1<<10, fmt.Sprintf("-archive-segment %d: expected at least 1KiB", o.archive.Bytes)},
		{o.removalRate <= 0, fmt.Sprintf("-removal-rate %v: expected more than 0", o.removalRate)},
		{o.allocator.SnapshotMessages < 1, fmt.Sprintf("-save-every %d: expected at least 1", o.allocator.SnapshotMessages)},
		{o.allocator.SnapshotMost < 0, fmt.Sprintf("-save-most %d: expected 0 or more", o.allocator.SnapshotMost)},
		{o.allocator.EpochLines < 1 || o.allocator.EpochLines > 1<<32-1, fmt.Sprintf("-epoch-every %d: expected 1 to 4294967295", o.allocator.EpochLines)},
		{o.limits.Requests < 0 || o.limits.Bytes < 0 || o.limits.Lines < 0 || o.limits.Streams < 0, "-limit-..: expected 0 or more"},
		{o.mesos.AgentGone < time.Second || o.mesos.Silence < time.Second || o.mesos.GatewayGrace < 0 || o.mesos.MaxRefuse < 0 || o.mesos.MaxFrameworks < 0, "-mesos-..: expected at least 1s for -mesos-agent-gone and -mesos-silence, and nothing negative"},
		{o.limits.Burst <= 0, fmt.Sprintf("-limit-burst %v: expected more than 0s", o.limits.Burst)},
	} {
		if check.isWrong {
			return nil, errors.New(check.problem)
		}
	}
	if o.tokens == "" {
		o.tokens = filepath.Join(o.data, "tokens.json")
	}
	if o.archive.Folder != "" && filepath.Clean(o.archive.Folder) == filepath.Clean(o.data) {
		return nil, errors.New("-archive and -data: expected two different folders")
	}
	o.archive.Data = o.data
	o.etcd.Folder, o.allocator.Folder, o.allocator.Program = o.data, o.data, o.drf
	return o, nil
}

// readPassword reads a file that has a password in its one line.
func readPassword(path string) (string, error) {
	text, err := os.ReadFile(path)
	if err != nil {
		return "", err
	}
	password := strings.TrimSuffix(strings.TrimSuffix(string(text), "\n"), "\r")
	if password == "" || strings.Contains(password, "\n") {
		return "", fmt.Errorf("%s: expected one line, the password", path)
	}
	return password, nil
}

// mesosFlags returns the flags of a Mesos master that mean the same here, by their names there.
func (o *options) mesosFlags() map[string]string {
	_, port, _ := net.SplitHostPort(o.listen)
	return map[string]string{"agent_reregister_timeout": mesosTime(o.mesos.AgentGone), "allocation_interval": mesosTime(o.cycle), "authenticate_agents": "true",
		"authenticate_frameworks": "true", "authenticate_http_frameworks": "true", "authenticate_http_readonly": "true", "authenticate_http_readwrite": "true",
		"max_completed_frameworks": "50", "port": port, "work_dir": o.data}
}

// mesosTime writes a duration as Mesos does.
func mesosTime(d time.Duration) string { return strconv.FormatFloat(d.Seconds(), 'f', -1, 64) + "secs" }
