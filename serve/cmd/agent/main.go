// Command durzhanok-agent runs tasks of Mesos' frameworks on a machine. Outside the proof.
package main

import (
	"context"
	"errors"
	"flag"
	"fmt"
	"log"
	"os"
	"os/signal"
	"os/user"
	"runtime"
	"strconv"
	"strings"
	"syscall"
	"time"

	"github.com/coreos/go-systemd/daemon"

	"gateway/internal/mesos/agent"
	"gateway/internal/mesos/codec"
	"gateway/internal/mesos/resources"
	"gateway/internal/usage"
	"gateway/internal/version"
)

func main() {
	var err error
	if len(os.Args) == 3 && os.Args[1] == "supervise" {
		err = agent.Supervise(os.Args[2])
	} else if len(os.Args) == 3 && os.Args[1] == "fetch" {
		err = agent.Fetch(context.Background(), os.Args[2], os.Stdin)
	} else {
		err = run(os.Args[1:])
	}
	if err != nil && !errors.Is(err, flag.ErrHelp) {
		fmt.Fprintln(os.Stderr, "durzhanok-agent:", err)
		os.Exit(1)
	}
}

func run(arguments []string) error {
	host, _ := os.Hostname()
	flags := flag.NewFlagSet("durzhanok-agent", flag.ContinueOnError)
	gateways := flags.String("gateways", "http://127.0.0.1:8450", "URLs of gateways, separated by commas")
	folder := flags.String("work", "durzhanok-agent-data", "folder for the agent's id and its tasks")
	hostname := flags.String("hostname", host, "name of this machine that frameworks see")
	name := flags.String("name", "", "name with which the agent's id begins (HOSTNAME)")
	given := flags.String("resources", "", "resources to offer, such as cpus:4;mem:8192;ports:[31000-32000] (all of the machine)")
	attributes := flags.String("attributes", "", "attributes such as rack:r1;zone:a")
	principal := flags.String("principal", "admin", "name of the token")
	tokenFile := flags.String("token-file", "", "file of the token, which needs the right agent:NAME")
	keep := flags.Duration("keep", 24*time.Hour, "how long sandboxes of ended tasks are kept")
	grace := flags.Duration("executor-shutdown-grace-period", 5*time.Second, "time that an executor has to end after SHUTDOWN, if its ExecutorInfo has none")
	registration := flags.Duration("executor-registration-timeout", time.Minute, "time that an executor has to subscribe after its own start, or after the agent's")
	switchUser := flags.Bool("switch-user", os.Getuid() == 0, "run each task as the user that its framework names; only root can")
	cgroups := flags.String("cgroups", "auto", "folder in cgroup v2 for the limits of tasks; auto for /sys/fs/cgroup/durzhanok if it can be created; none for no limits")
	outputSize := flags.Int64("output-size", 10, "size in MiB at which stdout and stderr are rotated; 0 for no limit")
	outputFiles := flags.Int("output-files", 5, "number of rotated files of stdout, and of stderr, that are kept")
	recovery := flags.Duration("recovery-timeout", 15*time.Minute, "time for which executors try to subscribe again after the agent ended")
	asked := operators{flags.String("listen", "", "address for operators' calls (none: no such calls)"), flags.String("cert", "", "file of the certificates for operators, who then use TLS"),
		flags.String("key", "", "file of the key of -cert")}
	isVersion := flags.Bool("version", false, "print the version and exit")
	if err := usage.Parse(flags, arguments, "[FLAG..]"); err != nil {
		return err
	}
	if *isVersion {
		fmt.Println("durzhanok-agent", version.Number)
		return nil
	}
	if flags.NArg() > 0 {
		return fmt.Errorf("%q: unknown argument; see durzhanok-agent -help", flags.Arg(0))
	}
	if *tokenFile == "" {
		return errors.New("-token-file: expected the file of the agent's token; see durzhanok-agent -help")
	}
	token, err := os.ReadFile(*tokenFile)
	if err != nil {
		return fmt.Errorf("-token-file: %w", err)
	}
	if *given == "" {
		*given = detect()
	}
	info, err := infoOf(*hostname, *given, *attributes)
	if err != nil {
		return err
	}
	if *name == "" {
		*name = *hostname
	}
	taskUser, err := userOfTasks(*switchUser, *tokenFile)
	if err != nil {
		return err
	}
	addAttribute(info, "task_user", taskUser)
	groups, reason, err := agent.FindCgroups(*cgroups)
	switch {
	case err != nil:
		return fmt.Errorf("-cgroups: %w", err)
	case groups == "":
		log.Printf("tasks have no limits of processors and memory: %v", reason)
		addAttribute(info, "task_limits", "none")
	default:
		addAttribute(info, "task_limits", "cgroup2")
	}
	self, err := os.Executable()
	if err != nil {
		return err
	}
	listener, err := asked.listen(info)
	if err != nil {
		return err
	}
	a, err := agent.New(agent.Config{Folder: *folder, Name: *name, Gateways: strings.Split(*gateways, ","), Principal: *principal, Token: strings.TrimSpace(string(token)),
		Info: info, Keep: *keep, Program: []string{self, "supervise"}, ShutdownGrace: *grace, RegistrationTimeout: *registration, RecoveryTimeout: *recovery,
		SwitchUser: *switchUser, Cgroups: groups, OutputBytes: *outputSize << 20, OutputFiles: *outputFiles})
	if err != nil {
		return err
	}
	log.Printf("agent %s with %s", a.ID(), *given)
	ctx, stop := signal.NotifyContext(context.Background(), os.Interrupt, syscall.SIGTERM)
	defer stop()
	daemon.SdNotify(true, daemon.SdNotifyReady) // the flags and files are right; no task gets to know systemd's socket
	go asked.serve(ctx, a, listener)
	a.Run(ctx)
	return nil
}

// infoOf returns the agent's description.
func infoOf(hostname, given, attributes string) (codec.Message, error) {
	bundle, err := resources.Parse(given)
	if err != nil {
		return codec.Message{}, fmt.Errorf("-resources: %w", err)
	}
	info := codec.New("mesos.AgentInfo").Set("hostname", hostname)
	for _, one := range bundle.Messages(resources.Style{}) {
		info.Add("resources", one)
	}
	for _, one := range strings.Split(attributes, ";") {
		if strings.TrimSpace(one) == "" {
			continue
		}
		name, value, is := strings.Cut(one, ":")
		if !is {
			return info, fmt.Errorf("-attributes: %q: expected NAME:VALUE", one)
		}
		if name = strings.TrimSpace(name); strings.HasPrefix(name, "task_") {
			return info, fmt.Errorf("-attributes: %q: attributes that begin with task_ are the agent's own", one)
		}
		addAttribute(info, name, strings.TrimSpace(value))
	}
	return info, nil
}

func addAttribute(info codec.Message, name, value string) {
	info.Add("attributes", codec.New("mesos.Attribute").Set("name", name).Set("type", "TEXT").Set("text.value", value))
}

// userOfTasks returns * where tasks run as their frameworks' users, or else the agent's user.
func userOfTasks(switchUser bool, tokenFile string) (string, error) {
	if switchUser {
		return "*", agent.CheckUsers(tokenFile)
	}
	own, err := user.Current()
	if err != nil {
		return strconv.Itoa(os.Getuid()), nil
	}
	return own.Username, nil
}

// detect returns the processors and the memory of this machine, less 1 GiB or half of it for other uses, and ports as Mesos offers them.
func detect() string {
	memory := 1024
	var about syscall.Sysinfo_t
	if syscall.Sysinfo(&about) == nil {
		all := int(uint64(about.Totalram) * uint64(about.Unit) >> 20)
		if memory = all - 1024; memory < all/2 {
			memory = all / 2
		}
	}
	return fmt.Sprintf("cpus:%d;mem:%d;ports:[31000-32000]", runtime.NumCPU(), memory)
}
