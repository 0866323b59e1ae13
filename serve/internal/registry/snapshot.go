// The cluster in snapshots, and from the rows of the allocator's state. Outside the proof.

package registry

import (
	"bytes"
	"encoding/json"
)

// clusterSnapshot is the cluster in a snapshot.
type clusterSnapshot struct {
	Offers     []heldOffer                  `json:"offers"`
	Agents     map[string]int64             `json:"agents"`
	Frameworks map[string]int64             `json:"frameworks"`
	Tasks      map[string]map[string]string `json:"tasks"`
}

func (c *cluster) Snapshot() []byte {
	text, _ := json.Marshal(clusterSnapshot{c.sorted(nil), c.agents, c.frameworks, c.tasks}) // maps in order of their keys
	return text
}

func (c *cluster) Restore(snapshot []byte) error {
	var s clusterSnapshot
	if err := json.Unmarshal(snapshot, &s); err != nil {
		return err
	}
	c.clear()
	for _, o := range s.Offers {
		c.add(o)
	}
	for name, message := range s.Agents {
		c.agents[name] = message
	}
	for name, message := range s.Frameworks {
		c.frameworks[name] = message
	}
	for framework, tasks := range s.Tasks {
		for name, agent := range tasks {
			c.addTask(framework, name, agent)
		}
	}
	return nil
}

// restoreRows replaces the cluster by the rows of the allocator's state, which has no timestamps of offers and no messages of registrations.
func (c *cluster) restoreRows(rows []byte, at int64) {
	c.clear()
	for _, line := range bytes.Split(rows, []byte("\n")) {
		var row struct {
			Row, Task string
			Offer
		}
		if json.Unmarshal(line, &row) != nil {
			continue
		}
		switch row.Row {
		case "offer":
			c.add(heldOffer{row.Offer, at})
		case "task":
			c.addTask(row.Framework, row.Task, row.Agent)
		case "agent":
			c.agents[row.Agent] = 0
		case "framework":
			c.frameworks[row.Framework] = 0
		}
	}
}
