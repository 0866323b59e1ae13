// Verifying an archive. Outside the proof.

package main

import (
	"context"
	"errors"
	"flag"
	"fmt"
	"io"
	"os"

	"gateway/internal/archive"
)

const verifyUsage = `usage: durzhanok-gateway verify-archive [-drf PROGRAM] [-last SHA256] [-print journal|audit] DIR
  -drf PROGRAM    check the replies too, with PROGRAM check
  -last SHA256    check that the last segment has this digest (/drf/v1/status has it), so that no later one is missing
  -print WHAT     write the journal, or the audit, to standard output
status: 0 good, 3 damaged or incomplete, 4 good with gaps, 1 another error`

// Statuses of verify-archive, beside 0 and 1.
const (
	statusDamaged = 3
	statusGaps    = 4
)

// verifyArchive checks the archive that the arguments name, and says what it has.
func verifyArchive(ctx context.Context, arguments []string, out, notes io.Writer) error {
	flags := flag.NewFlagSet("durzhanok-gateway verify-archive", flag.ContinueOnError)
	flags.SetOutput(io.Discard)
	program, last, print := flags.String("drf", "", ""), flags.String("last", "", ""), flags.String("print", "", "")
	if err := flags.Parse(arguments); errors.Is(err, flag.ErrHelp) {
		fmt.Fprintln(out, verifyUsage)
		return err
	} else if err != nil {
		return fmt.Errorf("verify-archive: %w\n%s", err, verifyUsage)
	}
	if flags.NArg() != 1 || *print != "" && *print != "journal" && *print != "audit" {
		return errors.New(verifyUsage)
	}
	temporary, err := os.MkdirTemp("", "verify-archive")
	if err != nil {
		return err
	}
	defer os.RemoveAll(temporary)
	replies := archive.NewReplies(*program, temporary)
	report, err := archive.Verify(flags.Arg(0), func(s *archive.Segment) error {
		text := map[string][]byte{"journal": s.JournalText, "audit": s.AuditText}[*print]
		if _, err := out.Write(text); err != nil || *program == "" {
			return err
		}
		return replies.Add(ctx, s)
	})
	if ended := replies.End(); err == nil {
		err = ended
	}
	if err == nil && *last != "" && *last != report.Sha256 {
		err = &archive.DamageError{Name: archive.Name(report.Last + 1), Reason: fmt.Sprintf("it is missing: the last segment has the SHA-256 %.16s.., and %.16s.. was expected", report.Sha256, *last)}
	}
	if damage := (*archive.DamageError)(nil); errors.As(err, &damage) {
		return &statusError{statusDamaged, err}
	}
	if err != nil {
		return err
	}
	fmt.Fprintf(notes, "good: segments %d to %d, messages %d to %d; the last segment has the SHA-256 %s\n", report.First, report.Last, report.From.Messages+1, report.To.Messages, report.Sha256)
	if *program != "" {
		fmt.Fprintf(notes, "replies: those to %d messages are right, and %d messages were not checked, because no state is before them\n", replies.Checked, replies.Unchecked)
	}
	for _, gap := range report.Gaps {
		fmt.Fprintf(notes, "gap: messages %d to %d were never archived\n", gap.After+1, gap.Before-1)
	}
	if len(report.Gaps) > 0 {
		return &statusError{statusGaps, errors.New("the archive is good, but messages are missing")}
	}
	return nil
}
