// Command gateway is the service around `drf run`. Outside the proof: it orders and stores lines, passes them to the allocator, and returns its
// replies; it never computes a reply itself.
package main

import (
	"context"
	"errors"
	"flag"
	"fmt"
	"os"
	"os/signal"
	"syscall"

	"gateway/internal/version"
)

func main() {
	if err := run(os.Args[1:]); err != nil && !errors.Is(err, flag.ErrHelp) {
		fmt.Fprintln(os.Stderr, "durzhanok-gateway:", err)
		status := 1
		if s := (*statusError)(nil); errors.As(err, &s) {
			status = s.status
		}
		os.Exit(status)
	}
}

// statusError is an error that ends the process with a status of its own.
type statusError struct {
	status int
	err    error
}

func (s *statusError) Error() string { return s.err.Error() }
func (s *statusError) Unwrap() error { return s.err }

func run(arguments []string) error {
	ctx, stop := signal.NotifyContext(context.Background(), os.Interrupt, syscall.SIGTERM)
	defer stop()
	if len(arguments) > 0 {
		switch arguments[0] {
		case "token":
			return tokenCommand(arguments[1:], os.Stdout, os.Stderr)
		case "verify-archive":
			return verifyArchive(context.Background(), arguments[1:], os.Stdout, os.Stderr)
		case "import":
			return importCluster(arguments[1:], os.Stdin, os.Stdout, os.Stderr)
		case "shadow":
			return shadowCommand(ctx, arguments[1:], os.Stdout, os.Stderr)
		case "demo":
			return demoCommand(ctx, arguments[1:], os.Stdin, os.Stdout)
		case "credentials":
			return credentialsCommand(arguments[1:], os.Stderr)
		}
	}
	o, err := readOptions(arguments)
	if err != nil {
		return err
	}
	if o.version {
		fmt.Println("durzhanok-gateway", version.Number)
		return nil
	}
	return o.serve(ctx)
}
