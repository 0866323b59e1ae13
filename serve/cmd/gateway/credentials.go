// Importing the principals of Mesos' frameworks. Outside the proof.

package main

import (
	"errors"
	"flag"
	"fmt"
	"io"
	"os"
	"path/filepath"

	"gateway/internal/auth"
	"gateway/internal/disk"
)

const credentialsUsage = `usage:
  durzhanok-gateway credentials [-tokens durzhanok-data/tokens.json] FILE [RIGHT..]
FILE is a credentials file of Mesos: {"credentials":[{"principal":..,"secret":..},..]}, or a principal and a secret in each line
RIGHT is what each of them may do, such as role:ROLE`

const shortSecret = 16 // bytes: a shorter one is likely to be guessed

// credentialsCommand imports a credentials file of Mesos into a tokens file: all of it, or nothing.
func credentialsCommand(arguments []string, notes io.Writer) error {
	flags := flag.NewFlagSet("durzhanok-gateway credentials", flag.ContinueOnError)
	flags.SetOutput(io.Discard)
	tokens := flags.String("tokens", "durzhanok-data/tokens.json", "")
	if err := flags.Parse(arguments); errors.Is(err, flag.ErrHelp) {
		fmt.Fprintln(os.Stdout, credentialsUsage)
		return err
	} else if err != nil {
		return fmt.Errorf("credentials: %w\n%s", err, credentialsUsage)
	}
	if flags.NArg() < 1 {
		return errors.New(credentialsUsage)
	}
	if err := disk.CheckOwner(filepath.Dir(*tokens)); err != nil { // the gateway could not read what another user writes
		return err
	}
	list, err := auth.ImportCredentials(*tokens, flags.Arg(0), flags.Args()[1:])
	if err != nil {
		return err
	}
	for _, one := range list {
		if len(one.Secret) < shortSecret {
			fmt.Fprintf(notes, "line %d: the secret of %q is short: replace it by a token\n", one.Line, one.Principal)
		}
	}
	if flags.NArg() == 1 {
		fmt.Fprintln(notes, "they have no rights yet: add some, such as role:ROLE, to the file")
	}
	fmt.Fprintf(notes, "%d principals are in %s; gateways that run know them when they read the file again: send each a SIGHUP\n", len(list), *tokens)
	return nil
}
