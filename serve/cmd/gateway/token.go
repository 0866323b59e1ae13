// Creating, listing and revoking tokens. Outside the proof.

package main

import (
	"errors"
	"flag"
	"fmt"
	"io"
	"os"
	"path/filepath"
	"strings"
	"text/tabwriter"
	"time"

	"gateway/internal/auth"
	"gateway/internal/disk"
)

const tokenUsage = `usage:
  durzhanok-gateway token add [-expires WHEN] FILE NAME RIGHT..
  durzhanok-gateway token list FILE
  durzhanok-gateway token revoke FILE NAME
RIGHT is admin, operate, clock, read, framework:NAME, role:ROLE, agent:NAME, agent:PREFIX* or user:NAME
WHEN is such as 30d, 12h, 2027-01-31 (the end of that day in UTC) or 2027-01-31T12:00:00Z`

// tokenCommand does what the arguments after "token" say. The older form without a command, FILE NAME RIGHT.., still adds a token.
func tokenCommand(arguments []string, out, notes io.Writer) error {
	if len(arguments) == 0 {
		return errors.New(tokenUsage)
	}
	switch arguments[0] {
	case "add":
		return addToken(arguments[1:], out, time.Now())
	case "list":
		return listTokens(arguments[1:], out, time.Now())
	case "revoke":
		return revokeToken(arguments[1:], notes)
	}
	return addToken(arguments, out, time.Now())
}

// addToken creates a token and prints it. If root runs it, the file is written as the owner of its folder, so that the gateway can read it.
func addToken(arguments []string, out io.Writer, now time.Time) error {
	flags := flag.NewFlagSet("durzhanok-gateway token add", flag.ContinueOnError)
	flags.SetOutput(io.Discard)
	when := flags.String("expires", "", "")
	if err := flags.Parse(arguments); errors.Is(err, flag.ErrHelp) {
		fmt.Fprintln(out, tokenUsage)
		return err
	} else if err != nil {
		return fmt.Errorf("token add: %w\n%s", err, tokenUsage)
	}
	if flags.NArg() < 3 {
		return errors.New(tokenUsage)
	}
	expires := time.Time{}
	if *when != "" {
		var err error
		if expires, err = auth.ParseExpiry(*when, now); err != nil {
			return fmt.Errorf("-expires %w", err)
		}
	}
	if err := disk.BecomeOwner(filepath.Dir(flags.Arg(0))); err != nil {
		return err
	}
	token, err := auth.AddCaller(flags.Arg(0), flags.Arg(1), flags.Args()[2:], expires)
	if err == nil {
		fmt.Fprintln(out, token)
	}
	return err
}

// listTokens prints the name of each token, its rights, and when it expires. The file has no secrets.
func listTokens(arguments []string, out io.Writer, now time.Time) error {
	if len(arguments) != 1 {
		return errors.New(tokenUsage)
	}
	callers, err := auth.ReadCallers(arguments[0])
	if err != nil {
		return err
	}
	table := tabwriter.NewWriter(out, 0, 0, 2, ' ', 0)
	fmt.Fprintln(table, "NAME\tRIGHTS\tEXPIRES")
	for _, c := range callers.List() {
		expires := "never"
		if c.Expires != nil {
			expires = c.Expires.UTC().Format(time.RFC3339)
		}
		if c.HasExpired(now) {
			expires += " (expired)"
		}
		fmt.Fprintf(table, "%s\t%s\t%s\n", c.Name, strings.Join(c.Rights, " "), expires)
	}
	return table.Flush()
}

// revokeToken removes a token from a file. Running gateways accept it until they read the file again.
func revokeToken(arguments []string, notes io.Writer) error {
	if len(arguments) != 2 {
		return errors.New(tokenUsage)
	}
	if err := disk.BecomeOwner(filepath.Dir(arguments[0])); err != nil {
		return err
	}
	if err := auth.RevokeCaller(arguments[0], arguments[1]); err != nil {
		return err
	}
	path := arguments[0]
	if folder, err := os.Getwd(); err == nil && !strings.HasPrefix(path, "/") {
		path = folder + "/" + path
	}
	fmt.Fprintf(notes, "%q is removed from %s; gateways that run know the token until they read the file again: send each a SIGHUP\n", arguments[1], path)
	return nil
}
