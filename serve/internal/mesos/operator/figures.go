// The figures of `metrics/snapshot` and GET_METRICS, under Mesos' names if they mean the same. Outside the proof.

package operator

import (
	"context"
	"encoding/json"
	"math/big"
	"net/http"
	"os"
	"runtime"
	"strconv"
	"strings"
	"syscall"
	"time"

	"gateway/internal/api"
	"gateway/internal/registry/mesos"
)

var counted = []string{"cpus", "mem", "disk", "gpus"}

// figures returns all figures.
func (o *Operator) figures(ctx context.Context) (map[string]float64, error) {
	v, err := o.view(ctx)
	if err != nil {
		return nil, err
	}
	f := map[string]float64{"master/elected": 1, "master/uptime_secs": time.Since(o.started).Seconds()}
	v.countFrameworks(f)
	v.countAgents(f)
	v.countTasks(f)
	v.countResources(f)
	for role, count := range v.rows.filters {
		f["allocator/mesos/offer_filters/roles/"+role+"/active"] = float64(count)
	}
	if answer, err := o.questions.Ask(ctx, "report", ""); err == nil {
		addShares(f, answer.Text)
	}
	addSystem(f)
	return f, nil
}

func (v *view) countFrameworks(f map[string]float64) {
	for _, name := range []string{"connected", "disconnected", "active", "inactive"} {
		f["master/frameworks_"+name] = 0
	}
	f["master/outstanding_offers"] = 0
	for _, one := range v.Frameworks {
		f["master/outstanding_offers"] += float64(len(one.Offers))
		if one.IsConnected {
			f["master/frameworks_connected"]++
			f["master/frameworks_active"]++
		} else {
			f["master/frameworks_disconnected"]++
			f["master/frameworks_inactive"]++
		}
	}
}

func (v *view) countAgents(f map[string]float64) {
	for _, name := range []string{"connected", "disconnected", "active", "inactive", "unreachable"} {
		f["master/slaves_"+name] = 0
	}
	for _, a := range v.Agents {
		is := map[bool]string{true: "connected", false: "disconnected"}[a.IsConnected]
		f["master/slaves_"+is]++
		is = map[bool]string{true: "active", false: "inactive"}[a.IsConnected && v.rows.agents[a.ID].isActive]
		f["master/slaves_"+is]++
	}
}

// countTasks counts the tasks that run by their states, and those that ended since the registry began.
func (v *view) countTasks(f map[string]float64) {
	for _, state := range taskStates {
		f[figureOf(state)] = float64(v.Ended[state])
	}
	for _, one := range v.Frameworks {
		for _, t := range one.Tasks {
			if !mesos.IsTerminal(t.State) {
				f[figureOf(t.State)]++
			}
		}
	}
}

func figureOf(state string) string {
	return "master/tasks_" + strings.ToLower(strings.TrimPrefix(state, "TASK_"))
}

func (v *view) countResources(f map[string]float64) {
	total, used, held := map[string]float64{}, map[string]float64{}, map[string]float64{}
	for _, a := range v.Agents {
		for key, value := range v.rows.agents[a.ID].total {
			total[key.Name] += float64(value.Scalar) / 1000
		}
		for key, value := range v.rows.used[a.ID].sum() {
			used[key.Name] += float64(value.Scalar) / 1000
			held[key.Name] += float64(value.Scalar) / 1000
		}
		for key, value := range v.rows.offered[a.ID].sum() {
			held[key.Name] += float64(value.Scalar) / 1000
		}
	}
	for _, name := range counted {
		f["master/"+name+"_total"], f["master/"+name+"_used"], f["master/"+name+"_percent"] = total[name], used[name], 0
		if total[name] > 0 {
			f["master/"+name+"_percent"] = used[name] / total[name]
		}
		f["allocator/mesos/resources/"+name+"/total"], f["allocator/mesos/resources/"+name+"/offered_or_allocated"] = total[name], held[name]
	}
}

// addShares adds the dominant shares of roles from the allocator's report.
func addShares(f map[string]float64, report []byte) {
	var all struct {
		Nodes []struct{ Path, Share string }
	}
	if json.Unmarshal(report, &all) != nil {
		return
	}
	for _, node := range all.Nodes {
		share, is := new(big.Rat).SetString(node.Share)
		if is && !strings.Contains("/"+node.Path+"/", "/./") { // which are frameworks
			f["allocator/mesos/roles/"+node.Path+"/shares/dominant"], _ = share.Float64()
		}
	}
}

// addSystem adds figures of this gateway's machine.
func addSystem(f map[string]float64) {
	f["system/cpus_total"] = float64(runtime.NumCPU())
	var about syscall.Sysinfo_t
	if syscall.Sysinfo(&about) == nil {
		f["system/mem_total_bytes"] = float64(uint64(about.Totalram) * uint64(about.Unit))
		f["system/mem_free_bytes"] = float64(uint64(about.Freeram) * uint64(about.Unit))
	}
	text, _ := os.ReadFile("/proc/loadavg")
	for k, field := range strings.Fields(string(text)) {
		if load, err := strconv.ParseFloat(field, 64); err == nil && k < 3 {
			f["system/load_"+[]string{"1", "5", "15"}[k]+"min"] = load
		}
	}
}

// snapshot answers `metrics/snapshot`.
func (o *Operator) snapshot(c *api.Call) error {
	if err := mayRead(c); err != nil {
		return err
	}
	if timeout := c.R.URL.Query().Get("timeout"); timeout != "" && !isDuration(timeout) {
		return api.Refuse(http.StatusBadRequest, "Invalid timeout '%s': expected a number with ns, us, ms, secs, mins, hrs, days or weeks", timeout)
	}
	figures, err := o.figures(c.R.Context())
	if err != nil {
		return err
	}
	return sendJSON(c, figures)
}

// isDuration reports whether a text is a duration as Mesos writes it.
func isDuration(text string) bool {
	for _, unit := range []string{"ns", "us", "ms", "secs", "mins", "hrs", "days", "weeks"} {
		if number, err := strconv.ParseFloat(strings.TrimSuffix(text, unit), 64); strings.HasSuffix(text, unit) && err == nil && number >= 0 {
			return true
		}
	}
	return false
}
