// Compares the messages of the operator APIs with those of Debian's mesos-go. Outside the proof.

package codec

import (
	"path/filepath"
	"strings"
	"testing"
)

// newer are the parts of Mesos' messages that Debian's mesos-go does not have. Nothing here confirms their numbers.
var newer = []string{
	"mesos.master.Call.Type.TEARDOWN", "mesos.master.Call.Type.MARK_AGENT_GONE", "mesos.master.Call.Type.GET_OPERATIONS", "mesos.master.Call.Type.GROW_VOLUME",
	"mesos.master.Call.Type.SHRINK_VOLUME", "mesos.master.Call.Type.UPDATE_QUOTA", "mesos.master.Call.Type.DRAIN_AGENT", "mesos.master.Call.Type.DEACTIVATE_AGENT",
	"mesos.master.Call.Type.REACTIVATE_AGENT", "mesos.master.Call.Teardown.", "mesos.master.Call.MarkAgentGone.", "mesos.master.Call.UpdateQuota.",
	"mesos.master.Call.DrainAgent.", "mesos.master.Call.DeactivateAgent.", "mesos.master.Call.ReactivateAgent.", "mesos.master.Call.teardown",
	"mesos.master.Call.mark_agent_gone", "mesos.master.Call.update_quota", "mesos.master.Call.drain_agent", "mesos.master.Call.deactivate_agent", "mesos.master.Call.reactivate_agent",
	"mesos.master.Response.Type.GET_OPERATIONS", "mesos.master.Response.GetOperations.", "mesos.master.Response.get_operations",
	"mesos.master.Response.GetAgents.Agent.drain_info", "mesos.master.Response.GetAgents.Agent.deactivated", "mesos.master.Response.GetAgents.Agent.estimated_drain_start_time",
	"mesos.master.Event.Type.HEARTBEAT", "mesos.master.Event.Subscribed.heartbeat_interval_seconds",
	"mesos.scheduler.Call.Type.UPDATE_FRAMEWORK", "mesos.scheduler.Call.UpdateFramework.", "mesos.scheduler.Call.update_framework",
	"mesos.quota.QuotaConfig.", "mesos.quota.QuotaStatus.configs",
}

// leftOut are the parts that this service does not have, because it has no maintenance.
var leftOut = []string{"mesos.master.Call.UpdateMaintenanceSchedule.", "mesos.master.Call.StartMaintenance.", "mesos.master.Call.StopMaintenance.",
	"mesos.master.Call.update_maintenance_schedule", "mesos.master.Call.start_maintenance", "mesos.master.Call.stop_maintenance",
	"mesos.master.Response.GetMaintenanceStatus.", "mesos.master.Response.GetMaintenanceSchedule.", "mesos.master.Response.get_maintenance_status", "mesos.master.Response.get_maintenance_schedule"}

// isOf reports whether a name is one of a list, or in a message of it, whose name ends with a dot there.
func isOf(list []string, name string) bool {
	for _, one := range list {
		if name == one || strings.HasSuffix(one, ".") && strings.HasPrefix(name, one) {
			return true
		}
	}
	return false
}

func TestOperatorNumbersAreThoseOfMesosGo(t *testing.T) {
	names := []string{"master/master.proto", "agent/agent.proto", "quota/quota.proto"}
	theirs := mesosGoFiles(t, names...)
	for _, name := range names {
		their, err := theirs.FindFileByPath(mesosGo + name)
		if err != nil {
			t.Fatal(err)
		}
		our, err := files.FindFileByPath(filepath.Base(name))
		if err != nil {
			t.Fatal(err)
		}
		have, want, compared := numbers(our), numbers(their), 0
		for key, value := range have {
			switch {
			case want[key] == value:
				compared++
			case want[key] != "" || !isOf(newer, key):
				t.Errorf("%s: %q, and in mesos-go %q", key, value, want[key])
			}
			delete(want, key)
		}
		for key, value := range want {
			if !isOf(leftOut, key) {
				t.Errorf("%s: missing, and in mesos-go %q", key, value)
			}
		}
		if least := map[string]int{"quota/quota.proto": 7}[name]; compared < least || least == 0 && compared < 80 {
			t.Errorf("%s: only %d numbers were compared", name, compared)
		}
	}
}
