// Package metrics, outside the proof, has the figures for Prometheus: counts of what was answered, and gauges that are read when they are
// asked for.
package metrics

import (
	"encoding/json"
	"fmt"
	"net/http"
	"strconv"
	"strings"
	"time"

	"gateway/internal/auth"

	"github.com/prometheus/client_golang/prometheus"
	"github.com/prometheus/client_golang/prometheus/promauto"
	"github.com/prometheus/client_golang/prometheus/promhttp"
)

// Metrics implements registry.Observer.
type Metrics struct {
	registry                       *prometheus.Registry
	events, made, ended, refused   *prometheus.CounterVec
	cycles, answers                prometheus.Histogram
	rows, limits, shares, weighted *prometheus.GaugeVec
	tokens                         *prometheus.GaugeVec
	lines                          map[lineKind]prometheus.Counter // of events, so that a line need not look for its labels
}

type lineKind struct{ kind, answer string }

// New returns metrics without gauges of the gateway: see Gauge.
func New() *Metrics {
	registry := prometheus.NewRegistry()
	make := promauto.With(registry)
	count := func(name, help string, labels ...string) *prometheus.CounterVec {
		return make.NewCounterVec(prometheus.CounterOpts{Name: name, Help: help}, labels)
	}
	gauge := func(name, help, label string) *prometheus.GaugeVec {
		return make.NewGaugeVec(prometheus.GaugeOpts{Name: name, Help: help}, []string{label})
	}
	times := func(name, help string) prometheus.Histogram {
		return make.NewHistogram(prometheus.HistogramOpts{Name: name, Help: help, Buckets: prometheus.ExponentialBuckets(0.0005, 2, 16)})
	}
	return &Metrics{
		registry: registry,
		lines:    map[lineKind]prometheus.Counter{},
		events:   count("drf_events_total", "Event lines that were answered, by event and answer: ok, or the name of the refusal.", "event", "answer"),
		made:     count("drf_offers_made_total", "Offers made.", "framework"),
		ended:    count("drf_offers_ended_total", "Offers that ended, by the event that ended them: accept, decline, rescind or another.", "framework", "event"),
		refused:  count("drf_requests_refused_total", "Requests that were refused, by status.", "status"),
		cycles:   times("drf_cycle_duration_seconds", "From the feeding of a cycle to its reply."),
		answers:  times("drf_answer_duration_seconds", "From a batch to its replies."),
		tokens:   gauge("drf_token_expires_timestamp_seconds", "When a token expires, if it does.", "name"),
		rows:     gauge("drf_table_rows", "Current rows.", "table"),
		limits:   gauge("drf_table_rows_limit", "Capacity of a table in rows.", "table"),
		shares:   gauge("drf_role_dominant_share_ratio", "The dominant share of a role.", "role"),
		weighted: gauge("drf_role_weighted_share_ratio", "The dominant share of a role, divided by its weight.", "role"),
	}
}

// Gauge adds a figure that is read when it is asked for.
func (m *Metrics) Gauge(name, help string, read func() float64) {
	promauto.With(m.registry).NewGaugeFunc(prometheus.GaugeOpts{Name: name, Help: help}, read)
}

// Line counts a line that was answered.
func (m *Metrics) Line(kind, answer string, took time.Duration) {
	if !auth.IsEvent(kind) {
		kind = "other"
	}
	counter, is := m.lines[lineKind{kind, answer}]
	if !is {
		counter = m.events.WithLabelValues(kind, answer)
		m.lines[lineKind{kind, answer}] = counter
	}
	counter.Inc()
	if kind == "cycle" {
		m.cycles.Observe(took.Seconds())
	}
}

// OfferMade counts an offer.
func (m *Metrics) OfferMade(framework string) { m.made.WithLabelValues(framework).Inc() }

// OfferEnded counts an offer that ended.
func (m *Metrics) OfferEnded(framework, reason string) {
	m.ended.WithLabelValues(framework, reason).Inc()
}

// FrameworkRemoved drops the figures of a framework.
func (m *Metrics) FrameworkRemoved(framework string) {
	m.made.DeleteLabelValues(framework)
	m.ended.DeletePartialMatch(prometheus.Labels{"framework": framework})
}

// Refused counts a request that was refused.
func (m *Metrics) Refused(status int) { m.refused.WithLabelValues(strconv.Itoa(status)).Inc() }

// Answered counts a batch that was answered.
func (m *Metrics) Answered(took time.Duration) { m.answers.Observe(took.Seconds()) }

// ServeHTTP writes all figures.
func (m *Metrics) ServeHTTP(w http.ResponseWriter, r *http.Request) {
	promhttp.HandlerFor(prometheus.Gatherers{m.registry, prometheus.DefaultGatherer}, promhttp.HandlerOpts{}).ServeHTTP(w, r)
}

// SetShares sets the shares of roles from a report, which has the nodes of frameworks as well, below `/.`.
func (m *Metrics) SetShares(report []byte) {
	var parsed struct {
		Nodes []struct{ Path, Share, Weighted string }
	}
	json.Unmarshal(report, &parsed)
	m.shares.Reset()
	m.weighted.Reset()
	for _, node := range parsed.Nodes {
		if !strings.Contains(node.Path+"/", "/./") {
			m.shares.WithLabelValues(node.Path).Set(ratio(node.Share))
			m.weighted.WithLabelValues(node.Path).Set(ratio(node.Weighted))
		}
	}
}

func ratio(text string) float64 {
	above, below := 0.0, 1.0
	fmt.Sscanf(text, "%f/%f", &above, &below)
	return above / below
}

// SetTables sets how full the tables are that have a capacity.
func (m *Metrics) SetTables(answer []byte) {
	tables := map[string]struct{ Rows, Limit float64 }{}
	json.Unmarshal(answer, &tables)
	for name, table := range tables {
		m.rows.WithLabelValues(name).Set(table.Rows)
		m.limits.WithLabelValues(name).Set(table.Limit)
	}
}

// SetTokens sets when the tokens expire that do.
func (m *Metrics) SetTokens(callers []*auth.Caller) {
	m.tokens.Reset()
	for _, c := range callers {
		if c.Expires != nil {
			m.tokens.WithLabelValues(c.Name).Set(float64(c.Expires.Unix()))
		}
	}
}

// SetRows sets the number of rows of a table without a capacity.
func (m *Metrics) SetRows(table string, rows int) {
	m.rows.WithLabelValues(table).Set(float64(rows))
}
