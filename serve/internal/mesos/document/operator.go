// Weights and quotas. Outside the proof.

package document

import (
	"fmt"

	"gateway/internal/mesos/resources"
)

// The weights that the allocator takes, in thousandths.
const leastWeight, greatestWeight = 1, 1_000_000

// weights reads the answer of /weights, or if it was not given the weights in the answer of /roles.
func (r *reader) weights(roles, weights value) {
	if weights.exists() {
		for _, v := range weights.list() {
			v.only("a weight", weightFields)
			r.weight(v.field("weight"), v.field("role").required())
		}
		return
	}
	for _, v := range roles.root().field("roles").list() {
		v.only("a role", roleFields)
		if v.field("weight").exists() {
			r.weight(v.field("weight"), v.field("name").required())
		}
	}
}

func (r *reader) weight(v value, role string) {
	number := v.number()
	if r.err == nil && number <= 0 {
		r.fail(v, "the weight %v: expected more than 0", number)
	}
	if number == 1 || !r.role(v, role, "a weight") {
		return
	}
	if _, isKnown := r.cluster.Weights[role]; isKnown {
		r.fail(v, "the role %q has two weights", role)
	}
	rounded := uint64(number*1000 + 0.5)
	if number > greatestWeight/1000 || rounded < leastWeight {
		r.leaveOut(v, fmt.Sprintf("the weight %v of the role %s", number, role), "the allocator takes weights from 0.001 to 1000")
		return
	}
	if !isWhole(number * 1000) {
		r.leaveOut(v, fmt.Sprintf("the weight %v of the role %s", number, role), "weights have at most three decimals: it is rounded to "+resources.AmountText(rounded))
	}
	r.cluster.Weights[role] = rounded
}

// quota reads the answer of /quota or, if it was not given, the quotas in the answer of /roles. Masters before 1.9 have only guarantees, which are
// limits too.
func (r *reader) quota(roles, quota value) {
	switch {
	case quota.root().field("configs").exists():
		for _, v := range quota.root().field("configs").list() {
			v.only("a quota", configFields)
			r.guarantee(v.field("guarantees"), v.field("role").required(), len(v.field("guarantees").object()))
			r.limit(v.field("limits"), v.field("role").required(), r.scalars(v.field("limits"), true))
		}
	case quota.exists():
		for _, v := range quota.root().field("infos").list() {
			v.only("a quota", infoFields)
			role, limits := v.field("role").required(), map[string]uint64{}
			for _, one := range v.field("guarantee").list() {
				one.only("a resource", resourceFields)
				limits[one.field("name").required()] += r.amount(one.field("scalar").field("value"), true)
			}
			r.guarantee(v.field("guarantee"), role, len(limits))
			r.limit(v.field("guarantee"), role, limits)
		}
	default:
		for _, v := range roles.root().field("roles").list() {
			q := v.field("quota")
			r.guarantee(q.field("guarantee"), v.field("name").required(), len(r.scalars(q.field("guarantee"), false)))
			if q.field("limit").exists() {
				r.limit(q.field("limit"), v.field("name").required(), r.scalars(q.field("limit"), true))
			}
		}
	}
}

// scalars reads {"cpus":{"value":4}} or {"cpus":4}.
func (r *reader) scalars(v value, isSaid bool) map[string]uint64 {
	amounts := map[string]uint64{}
	for _, name := range sortedKeys(v.object()) {
		one := v.field(name)
		if _, isObject := one.data.(map[string]any); isObject {
			one = one.field("value")
		}
		amounts[name] = r.amount(one, isSaid)
	}
	return amounts
}

func (r *reader) guarantee(v value, role string, count int) {
	if count > 0 {
		r.leaveOut(v, "the guarantee of the role "+role, "the allocator has limits, and no guarantees")
	}
}

func (r *reader) limit(v value, role string, amounts map[string]uint64) {
	if len(amounts) == 0 || !r.role(v, role, "a limit") {
		return
	}
	if role == "*" {
		r.leaveOut(v, "the limit of the role *", "this role cannot have a limit")
		return
	}
	if r.cluster.Limits[role] != nil {
		r.fail(v, "the role %q has two quotas", role)
	}
	for _, name := range sortedKeys(amounts) {
		if err := resources.Check(resources.Key{Name: name, Role: "*"}, resources.Value{}); err != nil {
			r.leaveOut(v, "the limit of "+name+" of the role "+role, err.Error())
			delete(amounts, name)
		}
	}
	if len(amounts) > 0 {
		r.cluster.Limits[role] = amounts
	}
}
