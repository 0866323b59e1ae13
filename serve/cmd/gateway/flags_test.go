// Tests of the flags. Outside the proof.

package main

import (
	"errors"
	"os"
	"path/filepath"
	"strings"
	"testing"
)

func TestFlagsOutOfBounds(t *testing.T) {
	for bad, want := range map[string]string{
		"x": `"x"`, "-cert a": "-cert", "-clock-bound 1s": "-clock-bound 1s", "-cycle 1ms": "-cycle", "-window -1s": "-window", "-save-every 0": "-save-every",
		"-epoch-every 4294967296": "-epoch-every", "-etcd a -members b": "-etcd", "-etcd-user u": "give -etcd too", "-etcd a -etcd-user u": "give both", "-etcd a -etcd-password-file f": "give both", "-etcd-quota 1MiB": "-etcd-quota", "-etcd-quota x": "etcd-quota", "-max-kept-keys 0": "-max-kept-keys",
		"-window -1s -cycle 1ms -cert a": "-cert", // in a fixed order
	} {
		if _, err := readOptions(strings.Fields(bad)); err == nil || !strings.Contains(err.Error(), want) {
			t.Errorf("%s: %v", bad, err)
		}
	}
	o, err := readOptions([]string{"-data", "d", "-etcd-quota", "256MiB"})
	if err != nil || o.tokens != filepath.Join("d", "tokens.json") || o.etcd.Quota != 256<<20 {
		t.Error(o, err)
	}
	if o, err := readOptions(nil); err != nil || o.etcd.Quota != 8<<30 {
		t.Error(o, err)
	}
}

func TestPasswordFile(t *testing.T) {
	path := filepath.Join(t.TempDir(), "password")
	for text, want := range map[string]string{"secret\n": "secret", "secret": "secret", " a b \r\n": " a b ", "": "", "\n": "", "a\nb\n": ""} {
		if err := os.WriteFile(path, []byte(text), 0o600); err != nil {
			t.Fatal(err)
		}
		if password, err := readPassword(path); password != want || (err == nil) != (want != "") {
			t.Errorf("%q: %q %v", text, password, err)
		}
	}
	if _, err := readPassword(path + ".none"); !errors.Is(err, os.ErrNotExist) {
		t.Error(err)
	}
}
