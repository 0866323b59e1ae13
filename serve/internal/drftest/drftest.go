// Package drftest, outside the proof, has a stand-in for drf, for tests of other packages: it answers a cycle with an offer, every other
// line with ok, and a question with the number of lines before it.
package drftest

import (
	"bufio"
	"bytes"
	"fmt"
	"io"
	"os"
	"path/filepath"
	"strings"
	"testing"
)

const variable = "DRF_STAND_IN"

// Main runs the tests of a package, or is the stand-in when Program's file starts it. Call it from TestMain.
func Main(m *testing.M) {
	if os.Getenv(variable) == "" {
		os.Exit(m.Run())
	}
	count := 0
	for k, word := range os.Args[:len(os.Args)-1] {
		if word == "--from" {
			text, _ := os.ReadFile(os.Args[k+1])
			fmt.Sscanf(string(text), `{"row":"state","count":%d}`, &count)
		}
	}
	if len(os.Args) > 1 && os.Args[1] == "save" {
		journal, _ := io.ReadAll(os.Stdin)
		fmt.Printf("{\"row\":\"state\",\"count\":%d}\n{\"row\":\"end\"}\n", count+bytes.Count(journal, []byte("\n"))/2)
	} else {
		answer(count, strings.Contains(strings.Join(os.Args, " "), "--echo"))
	}
	os.Exit(0)
}

// Program returns the path of a file that runs the stand-in.
func Program(t testing.TB) string {
	t.Helper()
	self, err := os.Executable()
	if err != nil {
		t.Fatal(err)
	}
	path := filepath.Join(t.TempDir(), "drf")
	if err := os.WriteFile(path, []byte(fmt.Sprintf("#!/bin/sh\n%s=1 exec '%s' \"$@\"\n", variable, self)), 0o700); err != nil {
		t.Fatal(err)
	}
	return path
}

func answer(count int, echo bool) {
	in, out := bufio.NewReader(os.Stdin), bufio.NewWriter(os.Stdout)
	for {
		line, err := in.ReadBytes('\n')
		if err != nil {
			return
		}
		switch {
		case bytes.HasPrefix(line, []byte("?")):
			name := strings.Fields(string(line[1:]))[0]
			if echo {
				out.WriteByte('?')
			}
			fmt.Fprintf(out, "{\"asked\":\"%s\",\"%s\":{\"lines\":%d}}\n", name, name, count)
		default:
			count++
			if echo {
				out.Write(line)
			}
			if bytes.Contains(line, []byte(`"cycle"`)) {
				fmt.Fprintf(out, `{"offers":[{"agent":"n","framework":"f","offer":%d,"resources":"cpus:1","role":"web"}]}`+"\n", count)
			} else {
				fmt.Fprintln(out, `{"ok":true}`)
			}
		}
		if in.Buffered() == 0 {
			out.Flush()
		}
	}
}
