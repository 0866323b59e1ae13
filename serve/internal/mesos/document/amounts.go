// Resources of documents, in both of their forms. Outside the proof.

package document

import (
	"fmt"
	"strconv"
	"strings"

	"gateway/internal/mesos/resources"
)

// summary reads resources without reservations, such as {"cpus":4.0,"ports":"[1-9]"}. If isSaid, it reports what cannot be carried over.
func (r *reader) summary(v value, isSaid bool) resources.Bundle {
	b := resources.Bundle{}
	object := v.object()
	for _, name := range sortedKeys(object) {
		one := v.field(name)
		if strings.HasSuffix(name, "_revocable") {
			if isSaid && !isZero(one) {
				r.leaveOut(one, name, "the allocator has no revocable resources")
			}
			continue
		}
		r.add(b, one, resources.Key{Name: name, Role: "*"}, r.parseSummary(one, isSaid))
	}
	return b
}

func isZero(v value) bool {
	_, isText := v.data.(string)
	return !isText && v.number() == 0
}

// add adds a resource, unless the allocator cannot represent its name or its role.
func (r *reader) add(b resources.Bundle, at value, key resources.Key, v resources.Value) {
	if err := resources.Check(key, v); err != nil {
		r.leaveOut(at, "the resource "+key.Name, err.Error())
		return
	}
	b.Add(resources.Bundle{key: v})
	if b[key].Scalar > resources.MaxAmount {
		r.fail(at, "the sum of %s is more than %s", key.Name, resources.AmountText(resources.MaxAmount))
	}
}

func (r *reader) parseSummary(v value, isSaid bool) (parsed resources.Value) {
	text, isText := v.data.(string)
	if !isText {
		return resources.Value{Scalar: r.amount(v, isSaid)}
	}
	text = strings.TrimSpace(text)
	switch {
	case text == "" || text == "[]" || text == "{}":
	case text[0] == '[' && text[len(text)-1] == ']':
		var ranges []resources.Range
		for _, one := range strings.Split(text[1:len(text)-1], ",") {
			first, last, _ := strings.Cut(strings.TrimSpace(one), "-")
			ranges = append(ranges, r.rangeOf(v, r.port(v, first), r.port(v, last)))
		}
		parsed.AddRanges(ranges...)
	case text[0] == '{' && text[len(text)-1] == '}':
		var items []string
		for _, one := range strings.Split(text[1:len(text)-1], ",") {
			items = append(items, strings.TrimSpace(one))
		}
		parsed.AddItems(items...)
	default:
		r.fail(v, "%q: expected a number, [FIRST-LAST, ..] or {ITEM, ..}", text)
	}
	return parsed
}

func (r *reader) rangeOf(v value, first, last uint64) resources.Range {
	if first > last {
		r.fail(v, "the range %d-%d ends before it begins", first, last)
	}
	return resources.Range{First: first, Last: last}
}

// port reads a number of a range.
func (r *reader) port(v value, text string) uint64 {
	number, err := strconv.ParseUint(strings.TrimSpace(text), 10, 32)
	if err != nil {
		r.fail(v, "the number %q of a range: expected 0 to %d", text, uint64(resources.MaxNumber))
	}
	return number
}

// total reads all resources of an agent. `detailed` has the reservations and volumes of the agent's own answer.
func (r *reader) total(v, detailed value) resources.Bundle {
	b := resources.Bundle{}
	r.summary(v.field("resources"), false)
	if detailed.field("unreserved_resources_full").exists() || detailed.field("reserved_resources_full").exists() {
		r.full(b, detailed.field("unreserved_resources_full"), true)
		byRole := detailed.field("reserved_resources_full")
		for _, role := range sortedKeys(byRole.object()) {
			r.full(b, byRole.field(role), true)
		}
		return b
	}
	if !v.field("unreserved_resources").exists() {
		r.fail(v.field("unreserved_resources"), "missing: expected the resources of the agent")
	}
	b.Add(r.summary(v.field("unreserved_resources"), true))
	byRole := v.field("reserved_resources")
	for _, role := range sortedKeys(byRole.object()) {
		reserved := byRole.field(role)
		if !r.role(reserved, role, "the reservation") {
			continue
		}
		for key, amount := range r.summary(reserved, true) {
			r.add(b, reserved, resources.Key{Name: key.Name, Role: role}, amount)
		}
	}
	return b
}

// full adds resources in the form of messages to b. If isSaid, it reports what cannot be carried over.
func (r *reader) full(b resources.Bundle, list value, isSaid bool) {
	for _, v := range list.list() {
		v.only("a resource", resourceFields)
		if key, parsed, isCarried := r.message(v, isSaid); isCarried {
			r.add(b, v, key, parsed)
		}
	}
}

func (r *reader) message(v value, isSaid bool) (key resources.Key, parsed resources.Value, isCarried bool) {
	key = resources.Key{Name: v.field("name").required(), Role: r.reservation(v, isSaid)}
	switch kind := v.field("type"); kind.required() {
	case "SCALAR":
		parsed.Scalar = r.amount(v.field("scalar").field("value"), isSaid)
	case "RANGES":
		var ranges []resources.Range
		for _, one := range v.field("ranges").field("range").list() {
			ranges = append(ranges, r.rangeOf(one, r.bound(one.field("begin")), r.bound(one.field("end"))))
		}
		parsed.AddRanges(ranges...)
	case "SET":
		var items []string
		for _, one := range v.field("set").field("item").list() {
			items = append(items, one.required())
		}
		parsed.AddItems(items...)
	default:
		r.fail(kind, "the type %q: expected SCALAR, RANGES or SET", kind.text())
	}
	say := func(field, what, reason string) {
		if isSaid {
			r.leaveOut(v.field(field), what, reason)
		}
	}
	if v.field("revocable").exists() {
		say("revocable", "revocable "+key.Name, "the allocator has no revocable resources")
		return key, parsed, false
	}
	disk := v.field("disk")
	if id := disk.field("persistence").field("id"); id.exists() {
		say("disk", fmt.Sprintf("the volume %q", id.text()), "the allocator has no volumes: its disk is carried over as reserved disk")
	}
	if disk.field("source").exists() {
		say("disk", "the source of a disk", "the allocator has no sources of disks: its size is added to the other disk")
	}
	if v.field("shared").exists() {
		say("shared", "the sharing of "+key.Name, "the allocator has no shared resources: it is carried over as not shared")
	}
	if v.field("provider_id").exists() {
		say("provider_id", "the resource provider of "+key.Name, "the allocator has no resource providers: it is carried over as a resource of the agent")
	}
	return key, parsed, true
}

// bound reads a number of a range, which JSON may have as a text.
func (r *reader) bound(v value) uint64 {
	if _, isText := v.data.(string); isText {
		return r.port(v, v.text())
	}
	number := v.number()
	if number < 0 || number > resources.MaxNumber || number != float64(uint64(number)) {
		r.fail(v, "the number %v of a range: expected 0 to %d", number, uint64(resources.MaxNumber))
		return 0
	}
	return uint64(number)
}

// reservation returns the role that a resource is reserved for. `reservations` has a stack of them, and `role` the only one.
func (r *reader) reservation(v value, isSaid bool) string {
	stack, role := v.field("reservations").list(), v.field("role").text()
	if len(stack) == 0 {
		if role == "" {
			return "*"
		}
		return role
	}
	last := stack[len(stack)-1]
	reserved := last.field("role").required()
	if role != "" && role != reserved {
		r.fail(v.field("role"), "the role %q is not that of reservations, %q", role, reserved)
	}
	if isSaid && len(stack) > 1 {
		r.leaveOut(v.field("reservations"), "the refinement of a reservation for "+stack[0].field("role").text(),
			"the allocator has one reservation: it is reserved for "+reserved+", and unreserved as a whole")
	}
	if isSaid && len(last.field("labels").field("labels").list())+len(v.field("reservation").field("labels").field("labels").list()) > 0 {
		r.leaveOut(v.field("reservations"), "the labels of a reservation for "+reserved, "the allocator has no labels")
	}
	return reserved
}

// pools returns the resources of an agent from which its holdings are taken.
func (r *reader) pools(total resources.Bundle, used value) *pools {
	p := &pools{byRole: map[string]resources.Bundle{}, free: total.Copy()}
	for _, v := range used.list() {
		v.only("a resource", resourceFields)
		key, parsed, isCarried := r.message(v, false)
		role := v.field("allocation_info").field("role").text()
		if !isCarried || role == "" || resources.Check(key, parsed) != nil {
			continue
		}
		if p.byRole[role] == nil {
			p.byRole[role] = resources.Bundle{}
		}
		p.byRole[role].Add(p.free.Take(resources.Bundle{key: parsed}))
	}
	return p
}
