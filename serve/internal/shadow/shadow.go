// Polls a master, and writes the results. Outside the proof.

package shadow

import (
	"bytes"
	"context"
	"encoding/json"
	"fmt"
	"io"
	"os/exec"
	"strconv"
	"strings"
	"text/tabwriter"
	"time"

	"gateway/internal/disk"
	"gateway/internal/importer"
	"gateway/internal/mesos/document"
)

// Shadow follows a master.
type Shadow struct {
	Master   *Master
	Program  string        // of the allocator
	Interval time.Duration // from one poll to the next
	AsJSON   bool
	State    string // the file to which the allocator's state of the cluster is saved after each poll, or empty
	Picture  string // the file to which a picture is written after each poll, or empty
	Now      func() time.Time

	things  map[string]bool // agents and tasks of the last poll
	leftOut string          // that was last listed
	failure string          // that was last reported
}

// Report is the result of one poll.
type Report struct {
	At      time.Time `json:"at"`
	Master  string    `json:"master"`
	Version string    `json:"version"`
	Agents  int       `json:"agents"`
	Tasks   int       `json:"tasks"`
	Came    int       `json:"came"` // agents and tasks since the last poll; 0 in the first one
	Gone    int       `json:"gone"`
	LeftOut []string  `json:"left_out"`
	Roles   []*Role   `json:"roles"`
}

// Poll asks the master once, saves the state, and compares.
func (s *Shadow) Poll(ctx context.Context) (*Report, error) {
	answers, err := s.Master.Ask(ctx)
	if err != nil {
		return nil, err
	}
	cluster, err := document.Read(answers)
	if err != nil {
		return nil, err
	}
	report := &Report{At: s.Now(), Master: s.Master.URL, Version: cluster.Version, Agents: len(cluster.Agents), LeftOut: []string{}}
	things := map[string]bool{}
	for _, a := range cluster.Agents {
		things[a.ID] = true
	}
	for _, f := range cluster.Frameworks {
		report.Tasks += len(f.Holdings)
		for _, h := range f.Holdings {
			things[f.ID+"\x00"+h.Name] = true
		}
	}
	if s.things != nil {
		report.Came, report.Gone = countNew(things, s.things), countNew(s.things, things)
	}
	lines, more := importer.Lines(cluster, importer.ByID)
	for _, one := range append(cluster.LeftOut, more...) {
		report.LeftOut = append(report.LeftOut, one.String())
	}
	if err := s.save(ctx, lines); err != nil {
		return nil, err
	}
	if report.Roles, err = Compare(ctx, s.Program, cluster); err != nil {
		return nil, err
	}
	s.things = things
	return report, nil
}

func countNew(now, before map[string]bool) (count int) {
	for thing := range now {
		if !before[thing] {
			count++
		}
	}
	return count
}

// save writes the state that the lines lead to.
func (s *Shadow) save(ctx context.Context, lines []byte) error {
	if s.State == "" {
		return nil
	}
	command := exec.CommandContext(ctx, s.Program, "save", "--epoch")
	var state, errors bytes.Buffer
	command.Stdin, command.Stdout, command.Stderr = bytes.NewReader(lines), &state, &errors
	if err := command.Run(); err != nil {
		return fmt.Errorf("the allocator: save: %w %s", err, strings.TrimSpace(errors.String()))
	}
	return disk.WriteFile(s.State, state.Bytes())
}

// Once polls once, and writes the report.
func (s *Shadow) Once(ctx context.Context, out, notes io.Writer) error {
	report, err := s.Poll(ctx)
	if err != nil {
		return err
	}
	return s.write(report, out, notes)
}

// Follow polls until the context ends. A failed poll is tried again; its reason is reported once until it changes.
func (s *Shadow) Follow(ctx context.Context, out, notes io.Writer) error {
	ticker := time.NewTicker(s.Interval)
	defer ticker.Stop()
	for {
		report, err := s.Poll(ctx)
		switch {
		case ctx.Err() != nil:
			return nil
		case err != nil && err.Error() != s.failure:
			s.failure = err.Error()
			fmt.Fprintf(notes, "%s: trying again every %v\n", s.failure, s.Interval)
		case err == nil && s.failure != "":
			s.failure = ""
			fmt.Fprintf(notes, "%s: answers again\n", s.Master.URL)
		}
		if err == nil {
			if err := s.write(report, out, notes); err != nil {
				return err
			}
		}
		select {
		case <-ctx.Done():
			return nil
		case <-ticker.C:
		}
	}
}

// write writes a report, and lists what was left out of it when that changes.
func (s *Shadow) write(report *Report, out, notes io.Writer) error {
	if leftOut := strings.Join(report.LeftOut, "\n"); leftOut != s.leftOut {
		s.leftOut = leftOut
		for _, one := range report.LeftOut {
			fmt.Fprintln(notes, "left out:", one)
		}
	}
	if s.Picture != "" {
		if err := disk.WriteFile(s.Picture, report.picture()); err != nil {
			return err
		}
	}
	if s.AsJSON {
		encoder := json.NewEncoder(out)
		encoder.SetEscapeHTML(false)
		return encoder.Encode(report)
	}
	return report.table(out)
}

func percent(share float64) string { return strconv.FormatFloat(100*share, 'f', 1, 64) + "%" }

func (r *Report) table(out io.Writer) error {
	var text bytes.Buffer
	fmt.Fprintf(&text, "%s  %s  Mesos %s: agents %d, tasks %d, since the last poll %d came and %d left, left out %d\n",
		r.At.UTC().Format("2006-01-02 15:04:05"), r.Master, r.Version, r.Agents, r.Tasks, r.Came, r.Gone, len(r.LeftOut))
	table := tabwriter.NewWriter(&text, 0, 0, 2, ' ', 0)
	fmt.Fprintln(table, "ROLE\tWEIGHT\tLIMIT\tTASKS\tMESOS\tSAME DEMAND\tFAIR\tWHY MESOS DIFFERS")
	for _, role := range r.Roles {
		var why []string
		for _, reason := range role.Why {
			why = append(why, reason.Kind+": "+reason.Text)
		}
		limit := "-"
		if role.Limit != nil {
			amounts := map[string]uint64{}
			for name, amount := range role.Limit {
				amounts[name] = uint64(amount*1000 + 0.5)
			}
			limit = limitText(amounts)
		}
		reasons := "-"
		if len(why) > 0 {
			reasons = strings.Join(why, "; ")
		}
		fmt.Fprintf(table, "%s\t%v\t%s\t%d\t%s\t%s\t%s\t%s\n", role.Role, role.Weight, limit, role.Tasks, percent(role.Mesos.Share), percent(role.Same.Share),
			percent(role.Fair.Share), reasons)
	}
	table.Flush()
	text.WriteByte('\n')
	_, err := out.Write(text.Bytes())
	return err
}
