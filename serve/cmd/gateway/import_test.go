// Tests of the command import. Outside the proof.

package main

import (
	"bytes"
	"errors"
	"os"
	"path/filepath"
	"strings"
	"testing"
)

const documents = "../../internal/mesos/document/testdata/"

func TestImport(t *testing.T) {
	want, err := os.ReadFile("../../internal/importer/testdata/1.8.jsonl")
	if err != nil {
		t.Fatal(err)
	}
	for _, c := range []struct {
		arguments string
		status    int
		lines     string
		message   string
	}{
		{documents + "1.8", 3, "", "9 left out, and nothing printed; give -partial"},
		{"--partial " + documents + "1.8", 0, string(want), "the attributes rack, zone"},
		{documents + "1.8 -partial", 0, string(want), "left out 9"},
		{documents + "1.8/state.json -partial -roles " + documents + "1.8/roles.json --quota=" + documents + "1.8/quota.json", 0, string(want), "left out 9"},
		{"-", 1, "", "standard input line 1 column 0: the document is cut"},
		{documents + "1.8/state.json -partial", 0, "", "no answer of /quota or /roles was given"},
		{documents + "absent", 1, "", "no such file"},
		{documents + "1.8 -roles absent.json", 1, "", "absent.json"},
		{"", 2, "", "expected one file or folder"},
		{"a b", 2, "", "2 files"},
		{"-x a", 2, "", "-x"},
	} {
		var out, messages bytes.Buffer
		err := importCluster(strings.Fields(c.arguments), strings.NewReader(""), &out, &messages)
		status := 0
		if s := (*statusError)(nil); errors.As(err, &s) {
			status = s.status
		} else if err != nil {
			status = 1
		}
		text := messages.String()
		if err != nil {
			text += err.Error()
		}
		if status != c.status || !strings.Contains(text, c.message) || c.status != 0 && out.Len() > 0 || c.lines != "" && out.String() != c.lines {
			t.Errorf("%s: status %d, %s, %d bytes", c.arguments, status, text, out.Len())
		}
	}
}

// A document that is damaged anywhere prints nothing.
func TestImportOfDamage(t *testing.T) {
	body, err := os.ReadFile(documents + "1.4/state.json")
	if err != nil {
		t.Fatal(err)
	}
	path := filepath.Join(t.TempDir(), "state.json")
	for end := 0; end < len(body)-2; end += 500 {
		if err := os.WriteFile(path, body[:end], 0o600); err != nil {
			t.Fatal(err)
		}
		var out, messages bytes.Buffer
		if err := importCluster([]string{"-partial", path}, nil, &out, &messages); err == nil || out.Len() > 0 {
			t.Fatalf("cut at %d: %v, %d bytes", end, err, out.Len())
		}
	}
}
