// Tests of the command shadow. Outside the proof.

package main

import (
	"bytes"
	"context"
	"errors"
	"net/http"
	"net/http/httptest"
	"os"
	"strings"
	"testing"
)

func TestShadow(t *testing.T) {
	master := httptest.NewServer(http.FileServer(http.Dir(folderOfMaster(t))))
	defer master.Close()
	for _, c := range []struct {
		arguments string
		status    int
		want      string
	}{
		{"", 2, "expected one URL"},
		{"http://a:1 http://b:1", 2, "2 arguments"},
		{"zk://a:1", 2, "expected http://HOST:PORT"},
		{"-interval 1ms " + master.URL, 2, "-interval 1ms"},
		{"-principal p " + master.URL, 2, "-secret-file"},
		{"-principal p -secret-file /absent " + master.URL, 1, "/absent"},
		{"-once -drf /absent " + master.URL, 1, "the allocator"},
		{master.URL + " --once --json -drf DRF", 0, `"version":"1.4.3"`},
		{master.URL + " -once -drf DRF", 0, "ROLE  WEIGHT"},
	} {
		if strings.Contains(c.arguments, "DRF") && os.Getenv("DRF") == "" {
			continue
		}
		var out, notes bytes.Buffer
		err := shadowCommand(context.Background(), strings.Fields(strings.ReplaceAll(c.arguments, "DRF", os.Getenv("DRF"))), &out, &notes)
		status, text := 0, out.String()
		if s := (*statusError)(nil); errors.As(err, &s) {
			status = s.status
		} else if err != nil {
			status = 1
		}
		if err != nil {
			text += err.Error()
		}
		if status != c.status || !strings.Contains(text, c.want) {
			t.Errorf("%s: status %d: %s", c.arguments, status, text)
		}
	}
}

// folderOfMaster returns a folder that answers as a master of Mesos 1.4 does.
func folderOfMaster(t *testing.T) string {
	t.Helper()
	folder := t.TempDir()
	if err := os.Mkdir(folder+"/master", 0o700); err != nil {
		t.Fatal(err)
	}
	for from, to := range map[string]string{"1.4/state.json": "master/state", "1.8/roles.json": "roles", "1.4/weights.json": "weights", "1.4/quota.json": "quota"} {
		body, err := os.ReadFile(documents + from)
		if err == nil {
			err = os.WriteFile(folder+"/"+to, body, 0o600)
		}
		if err != nil {
			t.Fatal(err)
		}
	}
	return folder
}
