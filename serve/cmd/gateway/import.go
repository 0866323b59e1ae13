// The command import. Outside the proof.

package main

import (
	"errors"
	"flag"
	"fmt"
	"io"
	"os"
	"path/filepath"

	"gateway/internal/importer"
	"gateway/internal/mesos/document"
	"gateway/internal/usage"
)

const importForm = `[FLAG..] FILE

Prints the event lines that set up the cluster of a Mesos master in an empty allocator. FILE is the answer of /state (- for
standard input), or a folder with the answers of /state, /slaves, /roles, /weights and /quota in state.json, slaves.json and so on.
If something cannot be carried over, it is listed on standard error, nothing is printed, and the status is 3, unless -partial is given.
`

// importCluster prints the lines of a cluster, or nothing.
func importCluster(arguments []string, in io.Reader, out, messages io.Writer) error {
	var isPartial, byName bool
	files := map[string]*string{}
	flags := flag.NewFlagSet("durzhanok-gateway import", flag.ContinueOnError)
	flags.BoolVar(&isPartial, "partial", false, "print the event lines even if something is left out")
	flags.BoolVar(&byName, "names", false, "use host names for agents and names for frameworks, where these are unique, instead of ids")
	for _, answer := range []string{"slaves", "roles", "weights", "quota"} {
		files[answer] = flags.String(answer, "", "file with the answer of /"+answer)
	}
	paths, err := parseMixed(flags, arguments, importForm)
	if errors.Is(err, flag.ErrHelp) {
		return err
	} else if err != nil {
		return &statusError{2, err}
	}
	if len(paths) != 1 {
		return &statusError{2, fmt.Errorf("import: %d files: expected one file or folder; see durzhanok-gateway import -help", len(paths))}
	}
	answers, err := readAnswers(paths[0], in, files)
	if err != nil {
		return err
	}
	cluster, err := document.Read(answers)
	if err != nil {
		return err
	}
	names := importer.ByID
	if byName {
		names = importer.ByName
	}
	lines, more := importer.Lines(cluster, names)
	leftOut := append(cluster.LeftOut, more...)
	for _, one := range leftOut {
		fmt.Fprintln(messages, "left out:", one)
	}
	summarize(messages, cluster, answers, len(leftOut))
	if len(leftOut) > 0 && !isPartial {
		return &statusError{3, fmt.Errorf("%s: %d left out, and nothing printed; give -partial to import the rest", answers.State.Name, len(leftOut))}
	}
	_, err = out.Write(lines)
	return err
}

// parseMixed parses flags that may come before and after other arguments, and returns the others.
func parseMixed(flags *flag.FlagSet, arguments []string, form string) (others []string, err error) {
	for {
		if err := usage.Parse(flags, arguments, form); err != nil {
			return nil, err
		}
		if flags.NArg() == 0 {
			return others, nil
		}
		others, arguments = append(others, flags.Arg(0)), flags.Args()[1:]
	}
}

func readAnswers(path string, in io.Reader, files map[string]*string) (answers document.Answers, err error) {
	folder := ""
	info, err := os.Stat(path)
	switch {
	case path == "-":
		answers.State.Name = "standard input"
		if answers.State.Body, err = io.ReadAll(in); err != nil {
			return answers, err
		}
	case err != nil:
		return answers, err
	case info.IsDir():
		folder = path
		path = filepath.Join(folder, "state.json")
		fallthrough
	default:
		if err := readAnswer(&answers.State, path); err != nil {
			return answers, err
		}
	}
	for _, other := range []struct {
		name   string
		answer *document.Answer
	}{{"slaves", &answers.Slaves}, {"roles", &answers.Roles}, {"weights", &answers.Weights}, {"quota", &answers.Quota}} {
		name, answer := other.name, other.answer
		path := *files[name]
		if path == "" && folder == "" {
			continue
		}
		isOptional := path == ""
		if isOptional {
			path = filepath.Join(folder, name+".json")
		}
		if err := readAnswer(answer, path); err != nil && !(isOptional && errors.Is(err, os.ErrNotExist)) {
			return answers, err
		}
	}
	return answers, nil
}

func readAnswer(answer *document.Answer, path string) (err error) {
	body, err := os.ReadFile(path)
	if err == nil {
		*answer = document.Answer{Name: path, Body: append([]byte{}, body...)}
	}
	return err
}

func summarize(messages io.Writer, cluster *document.Cluster, answers document.Answers, leftOut int) {
	tasks := 0
	for _, f := range cluster.Frameworks {
		tasks += len(f.Holdings)
	}
	fmt.Fprintf(messages, "%s: Mesos %s: agents %d, frameworks %d, tasks and executors %d, weights %d, limits %d, left out %d\n", answers.State.Name,
		cluster.Version, len(cluster.Agents), len(cluster.Frameworks), tasks, len(cluster.Weights), len(cluster.Limits), leftOut)
	if cluster.Offers > 0 {
		fmt.Fprintf(messages, "outstanding offers %d: they end, and the next cycle offers their resources again\n", cluster.Offers)
	}
	if answers.Weights.Body == nil && answers.Roles.Body == nil {
		fmt.Fprintln(messages, "no answer of /weights or /roles was given: all weights are 1")
	}
	if answers.Quota.Body == nil && answers.Roles.Body == nil {
		fmt.Fprintln(messages, "no answer of /quota or /roles was given: no limits are set")
	}
}
