// The fields that masters of the versions 1.4 to 1.11 write. Outside the proof.

package document

import "strings"

func fieldSet(names string) map[string]bool {
	set := map[string]bool{}
	for _, name := range strings.Fields(names) {
		set[name] = true
	}
	return set
}

var (
	stateFields = fieldSet(`version git_sha git_branch git_tag build_date build_time build_user start_time elected_time id pid hostname capabilities domain
		activated_slaves deactivated_slaves unreachable_slaves leader leader_info cluster log_dir external_log_file flags slaves recovered_slaves frameworks
		completed_frameworks orphan_tasks unregistered_frameworks`)
	slaveFields = fieldSet(`id hostname port attributes pid registered_time reregistered_time resources used_resources offered_resources reserved_resources
		unreserved_resources active deactivated version capabilities domain drain_info estimated_drain_start_time_seconds resource_providers
		reserved_resources_full unreserved_resources_full used_resources_full offered_resources_full`)
	frameworkFields = fieldSet(`id name pid used_resources offered_resources allocated_resources capabilities hostname webui_url active connected recovered
		user failover_timeout checkpoint registered_time unregistered_time reregistered_time principal resources role roles suppressed_roles tasks
		unreachable_tasks completed_tasks offers executors labels domain offer_filters offer_constraints`)
	taskFields = fieldSet(`id name framework_id executor_id slave_id state resources limits role statuses labels discovery container command user health_check
		check kill_policy max_completion_time`)
	executorFields = fieldSet(`executor_id name framework_id command resources limits role source labels type slave_id container discovery data
		shutdown_grace_period`)
	resourceFields = fieldSet(`name type scalar ranges set role reservation reservations disk revocable shared provider_id allocation_info`)
	roleFields     = fieldSet(`name weight frameworks resources quota allocated offered reserved`)
	weightFields   = fieldSet(`role weight`)
	infoFields     = fieldSet(`role principal guarantee limit`)
	configFields   = fieldSet(`role guarantees limits`)
)

// Tasks in these states hold nothing any more.
var isOver = fieldSet(`TASK_FINISHED TASK_FAILED TASK_KILLED TASK_ERROR TASK_LOST TASK_DROPPED TASK_GONE TASK_GONE_BY_OPERATOR`)

// Tasks in these states hold what they use.
var isHeld = fieldSet(`TASK_STAGING TASK_STARTING TASK_RUNNING TASK_KILLING TASK_UNREACHABLE TASK_UNKNOWN`)
