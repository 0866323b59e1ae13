// The figures of the gateway itself. Outside the proof.

package main

import "gateway/internal/api"

var isTrue = map[bool]float64{true: 1}

// addEarlyGauges adds the figures that exist before there is a service.
func (g *gateway) addEarlyGauges() {
	g.metrics.Gauge("drf_connected", "Whether this gateway reaches etcd's majority.", func() float64 { return isTrue[g.server.IsConnected()] })
	g.metrics.Gauge("drf_ready", "Whether this gateway takes events.", func() float64 { return isTrue[g.server.Healthy() == nil] })
}

// addGauges adds the figures of a service.
func (g *gateway) addGauges(service *api.Service) {
	add := func(name, help string, read func(s api.Status) float64) {
		g.metrics.Gauge(name, help, func() float64 { return read(service.Status()) })
	}
	add("drf_clock_agrees", "Whether this gateway's clock is near the service's.", func(s api.Status) float64 { return isTrue[s.ClockFault == ""] })
	add("drf_clock_offset_seconds", "How far this gateway's clock is ahead of the gateways' median.", func(s api.Status) float64 { return float64(s.ClockOffsetMS) / 1000 })
	add("drf_messages", "Messages in the list so far.", func(s api.Status) float64 { return float64(s.Messages) })
	g.metrics.Gauge("drf_lag_messages", "Messages that this gateway has not applied.", func() float64 { return float64(service.Members.Lag()) })
	add("drf_journal_bytes", "Bytes of the journal so far.", func(s api.Status) float64 { return float64(s.Bytes) })
	add("drf_offers_standing", "Offers that exist.", func(s api.Status) float64 { return float64(s.Offers) })
	add("drf_allocator_restarts", "How often the allocator was restarted.", func(s api.Status) float64 { return float64(s.Allocator.Restarts) })
	add("drf_time_seconds", "The allocator's time.", func(s api.Status) float64 { return float64(s.At) / 1000 })
	add("drf_kept_keys", "Idempotency keys of pruned messages that are kept.", func(s api.Status) float64 { return float64(s.KeptKeys) })
	add("drf_etcd_used_bytes", "Used bytes of etcd's store.", func(s api.Status) float64 { return float64(s.Etcd.Used) })
	add("drf_etcd_quota_bytes", "Size that etcd's store may have.", func(s api.Status) float64 { return float64(s.Etcd.Quota) })
	g.metrics.Gauge("drf_etcd_members_unreachable", "Members of etcd that do not answer, or whose gateway does not report.", func() (count float64) {
		for _, m := range service.Members.List().Etcd {
			count += isTrue[!m.Reachable]
		}
		return count
	})
	if service.Archive == nil {
		return
	}
	g.metrics.Gauge("drf_archive_failing", "Whether the archive cannot be written.", func() float64 { return isTrue[service.Archive.Status().Fault != ""] })
	g.metrics.Gauge("drf_archive_messages", "Messages up to which all are archived.", func() float64 { return float64(service.Archive.Status().Messages) })
	g.metrics.Gauge("drf_archive_bytes", "Bytes of the archive's segments.", func() float64 { return float64(service.Archive.Status().Bytes) })
	g.metrics.Gauge("drf_archive_gaps", "Gaps in the archive since the gateway started.", func() float64 { return float64(service.Archive.Status().Gaps) })
}
