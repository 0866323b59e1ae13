// The model of demand. Outside the proof.

package shadow

import (
	"sort"

	"gateway/internal/mesos/document"
	"gateway/internal/mesos/resources"
)

// A master does not say what its frameworks want. Two models of it are computed:
//
//   - the same demand: each framework wants, in each of its roles, exactly the tasks that it has;
//   - more demand: each active framework wants, in each role that it is subscribed in and has tasks in, tasks without end, which have the mean
//     size of those that it has. The others want the tasks that they have.
//
// In both models only scalars count, executors are part of the mean, and tasks on agents that get no offers stay where they are.

// endless is the number of tasks of a framework that always wants more.
const endless = -1

// wish is tasks of the same size.
type wish struct {
	size  resources.Bundle // scalars, without reservations
	count int
}

// client is a framework in one of its roles.
type client struct {
	framework, role string
	wishes          []wish           // the same demand, large tasks first
	mean            resources.Bundle // of its tasks, or nil if it has none
	wantsMore       bool             // it is active and subscribed
	fixed           resources.Bundle // what it holds on agents that get no offers
	held            resources.Bundle // what it holds in all
	tasks           int
}

// scalarsOf returns the scalars of resources, summed over reservations.
func scalarsOf(b resources.Bundle) resources.Bundle {
	scalars := resources.Bundle{}
	for key, v := range b {
		if v.Scalar > 0 {
			scalars.Add(resources.Bundle{{Name: key.Name, Role: "*"}: v})
		}
	}
	return scalars
}

// clientsOf returns the clients of a cluster in the order of frameworks and roles.
func clientsOf(cluster *document.Cluster, totals resources.Bundle) (clients []*client) {
	for _, f := range cluster.Frameworks {
		byRole := map[string]*client{}
		for _, role := range f.Roles {
			c := &client{framework: f.ID, role: role, wantsMore: f.IsActive && f.Subscribed[role], fixed: resources.Bundle{}, held: resources.Bundle{}}
			byRole[role], clients = c, append(clients, c)
		}
		executors := map[string]int{}
		sizes := map[string]map[string]int{} // of each role: the place of a size in its wishes
		for _, h := range f.Holdings {
			c := byRole[h.Role]
			c.held.Add(h.Use)
			if c.tasks++; h.IsExecutor {
				executors[h.Role]++
			}
			if !cluster.Agents[h.Agent].IsActive {
				c.fixed.Add(h.Use)
				continue
			}
			size := scalarsOf(h.Use)
			if len(size) == 0 {
				continue
			}
			if sizes[h.Role] == nil {
				sizes[h.Role] = map[string]int{}
			}
			place, isKnown := sizes[h.Role][size.Text()]
			if !isKnown {
				place = len(c.wishes)
				sizes[h.Role][size.Text()], c.wishes = place, append(c.wishes, wish{size: size})
			}
			c.wishes[place].count++
		}
		for role, c := range byRole {
			sort.SliceStable(c.wishes, func(i, j int) bool { return share(c.wishes[i].size, totals) > share(c.wishes[j].size, totals) })
			count := c.tasks - executors[role]
			if count == 0 {
				count = c.tasks
			}
			c.mean = meanOf(scalarsOf(c.held), count)
		}
	}
	return clients
}

// meanOf divides scalars, and rounds down.
func meanOf(sum resources.Bundle, count int) resources.Bundle {
	if count == 0 {
		return nil
	}
	mean := resources.Bundle{}
	for key, v := range sum {
		if part := v.Scalar / uint64(count); part > 0 {
			mean[key] = resources.Value{Scalar: part}
		}
	}
	return mean
}

// share returns the greatest fraction that scalars are of the totals.
func share(scalars, totals resources.Bundle) (greatest float64) {
	for key, v := range scalars {
		if total := totals[key].Scalar; total > 0 && float64(v.Scalar)/float64(total) > greatest {
			greatest = float64(v.Scalar) / float64(total)
		}
	}
	return greatest
}

// fits returns how many times a size is contained in scalars.
func fits(size, scalars resources.Bundle) (times uint64) {
	times = 1 << 62
	for key, v := range size {
		if n := scalars[key].Scalar / v.Scalar; n < times {
			times = n
		}
	}
	return times
}

// multiple returns a size several times.
func multiple(size resources.Bundle, times uint64) resources.Bundle {
	b := resources.Bundle{}
	for key, v := range size {
		b[key] = resources.Value{Scalar: v.Scalar * times}
	}
	return b
}
