// Tests of reading flags. Outside the proof.

package usage

import (
	"errors"
	"flag"
	"testing"
)

func TestParse(t *testing.T) {
	for arguments, want := range map[string]string{
		"-x=1": "", "-y": "flag provided but not defined: -y; see it -help", "-x=a": `invalid value "a" for flag -x: parse error; see it -help`,
	} {
		flags := flag.NewFlagSet("it", flag.ContinueOnError)
		flags.Int("x", 0, "a number")
		got := ""
		if err := Parse(flags, []string{arguments}, "[FLAG..]"); err != nil {
			got = err.Error()
		}
		if got != want {
			t.Errorf("%s: %q, not %q", arguments, got, want)
		}
	}
	if err := Parse(flag.NewFlagSet("it", flag.ContinueOnError), []string{"--help"}, "[FLAG..]"); !errors.Is(err, flag.ErrHelp) {
		t.Error(err)
	}
}
