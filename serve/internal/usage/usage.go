// Package usage reads flags as users expect it, outside the proof: help goes to standard output, and an error is one line.
package usage

import (
	"errors"
	"flag"
	"fmt"
	"io"
	"os"
)

// Parse parses arguments. At -h and -help it prints the forms of the command and the flags, and returns flag.ErrHelp.
func Parse(flags *flag.FlagSet, arguments []string, forms ...string) error {
	flags.SetOutput(io.Discard)
	err := flags.Parse(arguments)
	switch {
	case errors.Is(err, flag.ErrHelp):
		lead := "Usage:"
		for _, form := range forms {
			fmt.Fprintln(os.Stdout, lead, flags.Name(), form)
			lead = "      "
		}
		flags.SetOutput(os.Stdout)
		flags.PrintDefaults()
	case err != nil:
		err = fmt.Errorf("%w; see %s -help", err, flags.Name())
	}
	return err
}
