// Tests of the figures. Outside the proof.

package metrics

import (
	"net/http/httptest"
	"strings"
	"testing"
	"time"

	"gateway/internal/auth"
)

func TestFigures(t *testing.T) {
	m := New()
	m.Line("cycle", "ok", 3*time.Millisecond)
	m.Line("add_agent", "KnownAgent", 0)
	m.Line("<script>", "ok", 0)
	m.OfferMade("site")
	m.OfferMade("shop")
	m.OfferEnded("site", "decline")
	m.FrameworkRemoved("shop")
	m.Refused(403)
	m.Answered(time.Millisecond)
	m.Gauge("drf_ready", "Whether it is ready.", func() float64 { return 1 })
	m.SetShares([]byte(`{"nodes":[{"path":"web","share":"1/4","weighted":"1/8"},{"path":"web/./site","share":"1/4","weighted":"1/4"}]}`))
	m.SetTables([]byte(`{"agents":{"limit":4096,"rows":3}}`))
	m.SetRows("offers", 5)
	until := time.Unix(1_800_000_000, 0)
	m.SetTokens([]*auth.Caller{{Name: "old", Expires: &until}})
	m.SetTokens([]*auth.Caller{{Name: "web", Expires: &until}, {Name: "admin"}})
	w := httptest.NewRecorder()
	m.ServeHTTP(w, httptest.NewRequest("GET", "/metrics", nil))
	text := w.Body.String()
	for _, want := range []string{
		`drf_events_total{answer="KnownAgent",event="add_agent"} 1`, `drf_events_total{answer="ok",event="other"} 1`, `drf_events_total{answer="ok",event="cycle"} 1`,
		`drf_offers_made_total{framework="site"} 1`, `drf_offers_ended_total{event="decline",framework="site"} 1`, `drf_requests_refused_total{status="403"} 1`,
		`drf_role_dominant_share_ratio{role="web"} 0.25`, `drf_role_weighted_share_ratio{role="web"} 0.125`, `drf_table_rows{table="agents"} 3`,
		`drf_table_rows_limit{table="agents"} 4096`, `drf_table_rows{table="offers"} 5`, `drf_ready 1`, `drf_token_expires_timestamp_seconds{name="web"} 1.8e+09`, `drf_cycle_duration_seconds_count 1`, `drf_answer_duration_seconds_count 1`,
	} {
		if !strings.Contains(text, want+"\n") {
			t.Errorf("%s is missing", want)
		}
	}
	for _, not := range []string{"shop", "<script", "/./", "old", "admin"} {
		if strings.Contains(text, not) {
			t.Errorf("%s is there", not)
		}
	}
}
