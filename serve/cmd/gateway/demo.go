// The command demo. Outside the proof.

package main

import (
	"context"
	"errors"
	"flag"
	"fmt"
	"io"
	"os"
	"os/signal"
	"syscall"

	"gateway/internal/demo"
	"gateway/internal/usage"
)

const demoForm = `[FLAG..]

Starts a service on this machine with a simulated cluster, and prints a link to its page. At Ctrl-C everything is removed.
`

// demoCommand runs a demo until it is interrupted, or its terminal is closed.
func demoCommand(ctx context.Context, arguments []string, in io.Reader, out io.Writer) error {
	o := demo.Options{In: in, Out: out}
	flags := flag.NewFlagSet("durzhanok-gateway demo", flag.ContinueOnError)
	flags.StringVar(&o.Drf, "drf", "drf", "program of the allocator, drf")
	flags.StringVar(&o.Listen, "listen", "127.0.0.1:8450", "address of the loopback interface; port 0 means any free port")
	if err := usage.Parse(flags, arguments, demoForm); errors.Is(err, flag.ErrHelp) {
		return err
	} else if err != nil {
		return &statusError{2, err}
	}
	if flags.NArg() > 0 {
		return &statusError{2, fmt.Errorf("demo: %q: unknown argument; see durzhanok-gateway demo -help", flags.Arg(0))}
	}
	program, err := os.Executable()
	if err != nil {
		return err
	}
	o.Gateway = program
	signal.Ignore(syscall.SIGTTIN) // in the background of a terminal nothing is read, and the demo continues
	ctx, stop := signal.NotifyContext(ctx, syscall.SIGHUP)
	defer stop()
	if err := demo.Run(ctx, o); err != nil {
		return fmt.Errorf("demo: %w", err)
	}
	fmt.Fprintln(out, "\nThe demo has ended, and is removed.")
	return nil
}
