// Which agents are silent, and since when. Outside the proof.

package session

import (
	"context"
	"fmt"
	"strings"
	"time"

	"gateway/internal/oplog"
	"gateway/internal/registry"

	"go.etcd.io/etcd/clientv3"
)

// Silent is an agent whose heartbeats have stopped.
type Silent struct {
	Agent string
	Since int64 // milliseconds, about when the last heartbeat came; 0 while that is not known
}

// note returns the operation that records since when an agent is silent. The note stays until a heartbeat arrives or the agent is removed.
func (m *Manager) note(kind, name, key string, registration int64) clientv3.Op {
	if kind != registry.Agents {
		return clientv3.OpDelete(m.key("silent", registered(kind), name))
	}
	since := m.log.Clock.Now().Add(m.silent[key] - m.running() - m.config.Timeouts[kind]).UnixMilli()
	return clientv3.OpPut(m.key("silent", kind, name), fmt.Sprintf("%d %d", since, registration))
}

// Silent returns the agents whose heartbeats have stopped, in the order of their names: those that were deactivated for that, and those that are
// about to be.
func (m *Manager) Silent(ctx context.Context) ([]Silent, error) {
	silent := []Silent{}
	if m.config.Timeouts[registry.Agents] == 0 {
		return silent, nil
	}
	noted, watched, alive := m.key("silent", registry.Agents, ""), m.key("watched", registry.Agents, ""), m.key("alive", registry.Agents, "")
	answer, err := m.log.Cluster().Client().Txn(ctx).Then(clientv3.OpGet(noted, clientv3.WithPrefix()), clientv3.OpGet(watched, clientv3.WithPrefix()),
		clientv3.OpGet(alive, clientv3.WithPrefix(), clientv3.WithKeysOnly())).Commit()
	if err != nil {
		return nil, &oplog.UnavailableError{Err: err}
	}
	ranges := [3]map[string]string{}
	for k, prefix := range []string{noted, watched, alive} {
		ranges[k] = map[string]string{}
		for _, kv := range answer.Responses[k].GetResponseRange().Kvs {
			ranges[k][strings.TrimPrefix(string(kv.Key), prefix)] = string(kv.Value)
		}
	}
	for _, name := range m.registry.Names(registry.Agents) {
		registration, _ := m.registry.Registration(registry.Agents, name)
		since, of := int64(0), int64(0)
		fmt.Sscanf(ranges[0][name], "%d %d", &since, &of)
		_, isAlive := ranges[2][name]
		switch {
		case of == registration && of > 0:
			silent = append(silent, Silent{name, since})
		case ranges[1][name] == fmt.Sprint(registration) && !isAlive:
			silent = append(silent, Silent{name, 0})
		}
	}
	return silent, nil
}

// forgetNotes deletes the notes of agents that were removed or registered again.
func (m *Manager) forgetNotes(ctx context.Context) error {
	ctx, cancel := context.WithTimeout(ctx, 20*time.Second)
	defer cancel()
	client, prefix := m.log.Cluster().Client(), m.key("silent", registry.Agents, "")
	answer, err := client.Get(ctx, prefix, clientv3.WithPrefix())
	if err != nil {
		return err
	}
	for _, kv := range answer.Kvs {
		applied := m.registry.Info().Revision // before the registration is looked up
		registration, is := m.registry.Registration(registry.Agents, strings.TrimPrefix(string(kv.Key), prefix))
		since, of := int64(0), int64(0)
		fmt.Sscanf(string(kv.Value), "%d %d", &since, &of)
		if is && of == registration || applied < kv.ModRevision {
			continue
		}
		if _, err := client.Txn(ctx).If(clientv3.Compare(clientv3.ModRevision(string(kv.Key)), "=", kv.ModRevision)).Then(clientv3.OpDelete(string(kv.Key))).Commit(); err != nil {
			return err
		}
	}
	return nil
}
