// The command shadow. Outside the proof.

package main

import (
	"context"
	"errors"
	"flag"
	"fmt"
	"io"
	"os"
	"strings"
	"time"

	"gateway/internal/shadow"
)

const shadowForm = `[FLAG..] URL

Polls the Mesos master at URL, such as http://10.0.0.1:5050. For each role, it shows the share that the role holds in Mesos, the
share that the allocator would give it for the same demand, and its fair share if all active frameworks wanted more. It changes
nothing in Mesos.
`

func shadowCommand(ctx context.Context, arguments []string, out, notes io.Writer) error {
	s := &shadow.Shadow{Now: time.Now}
	flags := flag.NewFlagSet("durzhanok-gateway shadow", flag.ContinueOnError)
	var isOnce bool
	var principal, secretFile string
	var timeout time.Duration
	flags.BoolVar(&isOnce, "once", false, "poll once and exit")
	flags.BoolVar(&s.AsJSON, "json", false, "print a JSON object for each poll instead of a table")
	flags.DurationVar(&s.Interval, "interval", 10*time.Second, "time from one poll to the next")
	flags.DurationVar(&timeout, "timeout", 30*time.Second, "time that the master has to answer all questions of a poll")
	flags.StringVar(&s.Program, "drf", "drf", "program of the allocator, drf")
	flags.StringVar(&s.State, "state", "", "file to save the allocator's state of the cluster to after each poll, for drf --from")
	flags.StringVar(&s.Picture, "svg", "", "file to write a picture to after each poll")
	flags.StringVar(&principal, "principal", "", "principal to authenticate as at the master")
	flags.StringVar(&secretFile, "secret-file", "", "file of the principal's secret")
	urls, err := parseMixed(flags, arguments, shadowForm)
	switch {
	case errors.Is(err, flag.ErrHelp):
		return err
	case err != nil:
	case len(urls) != 1:
		err = fmt.Errorf("shadow: %d arguments: expected one URL; see durzhanok-gateway shadow -help", len(urls))
	case s.Interval < time.Second:
		err = fmt.Errorf("-interval %v: expected at least 1s", s.Interval)
	case timeout <= 0:
		err = fmt.Errorf("-timeout %v: expected more than 0s", timeout)
	case (principal == "") != (secretFile == ""):
		err = errors.New("-principal and -secret-file: give both or none")
	default:
		s.Master, err = shadow.NewMaster(urls[0], timeout)
	}
	if err != nil {
		return &statusError{2, err}
	}
	if principal != "" {
		secret, err := os.ReadFile(secretFile)
		if err != nil {
			return err
		}
		s.Master.Principal, s.Master.Secret = principal, strings.TrimRight(string(secret), "\r\n")
	}
	if isOnce {
		return s.Once(ctx, out, notes)
	}
	return s.Follow(ctx, out, notes)
}
