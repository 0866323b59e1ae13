// Tests of the paths of other APIs. Outside the proof.

package api

import (
	"net/http"
	"net/http/httptest"
	"testing"
)

func TestFindMount(t *testing.T) {
	for path, want := range map[string]string{
		"/state": "/state", "/master/state": "/state", "/master/state.json": "/state", "/state.json": "/state", "/metrics/snapshot": "/metrics/snapshot",
		"/master/api/v1": "/api/v1", "/quota/eng/web": "/quota", "/master/quota/eng": "/quota", "/drf/v1/agent-link": "/drf/v1/agent-link",
		"/metrics": "", "/drf/v1/state": "", "/drf/v1/state.json": "", "/master": "", "/": "", "/masterstate": "", "/master/master/state": "", "/weights/x": "", "/healthz": "", "/quotas": "",
	} {
		name, _, is := findMount(path)
		if is != (want != "") || is && name != want {
			t.Errorf("%s: %q %v, want %q", path, name, is, want)
		}
	}
}

func TestPagesOfOtherSites(t *testing.T) {
	for origin, want := range map[string]bool{"": false, "http://here:1": false, "https://here:1": false, "http://elsewhere": true, "http://here:2": true, "null": true, "http://[": true} {
		r := httptest.NewRequest(http.MethodPost, "http://here:1/teardown", nil)
		if r.Header.Set("Origin", origin); isForeign(r) != want {
			t.Errorf("%q: want %v", origin, want)
		}
	}
}
