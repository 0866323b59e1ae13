// The settings and who made them, stored in etcd beside the snapshots for gateways that have no file of them. Outside the proof.

package allocator

import (
	"bytes"
	"compress/gzip"
	"context"
	"fmt"
	"io"
	"log"
)

const settingsKey = "settings"

// shareSettings writes the settings into etcd. They are as of about the snapshot.
func (a *Allocator) shareSettings(ctx context.Context) error {
	var packed bytes.Buffer
	out := gzip.NewWriter(&packed)
	out.Write(a.journal.Settings.Encode())
	out.Close()
	if _, err := a.log.Cluster().Client().Put(ctx, a.log.Path(settingsKey), packed.String()); err != nil {
		return fmt.Errorf("writing the settings to etcd: %w", err)
	}
	return nil
}

// adoptSettings adds the settings in etcd, if the gateway had no file of its own. Without them, older settings have no sender.
func (a *Allocator) adoptSettings(ctx context.Context) {
	if !a.journal.lacksSettings {
		return
	}
	answer, err := a.log.Cluster().Client().Get(ctx, a.log.Path(settingsKey))
	if err != nil { // it is tried again with the next child
		return
	}
	a.journal.lacksSettings = false
	if len(answer.Kvs) == 0 {
		return
	}
	in, err := gzip.NewReader(bytes.NewReader(answer.Kvs[0].Value))
	text := []byte(nil)
	if err == nil {
		text, err = io.ReadAll(in)
	}
	if err == nil {
		err = a.journal.Settings.Merge(text)
	}
	if err != nil {
		log.Printf("the settings in etcd: %v", err)
	}
}
