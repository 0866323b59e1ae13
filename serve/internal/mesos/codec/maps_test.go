// Tests of maps. Outside the proof.

package codec

import "testing"

func TestMaps(t *testing.T) {
	for _, text := range []string{
		`{"role":"dev","limits":{"cpus":{"value":10},"mem":{"value":0.5,"x":1}}}`,
		`{"role":"dev","guarantees":{"cpus":{"value":1}}}`,
	} {
		m, err := ReadJSON("mesos.quota.QuotaConfig", []byte(text))
		if err != nil || string(m.JSON()) != text {
			t.Errorf("%s: %s %v", text, m.JSON(), err)
		}
		again, err := ReadProtobuf("mesos.quota.QuotaConfig", m.Protobuf())
		if err != nil || string(again.JSON()) != text {
			t.Errorf("%s as protobuf: %s %v", text, again.JSON(), err)
		}
	}
	m, _ := ReadJSON("mesos.quota.QuotaConfig", []byte(`{"role":"dev","limits":{"cpus":{"value":10}}}`))
	if limits := m.Map("limits"); len(limits) != 1 || limits["cpus"].Float("value") != 10 || len(m.Map("guarantees")) != 0 {
		t.Error(limits)
	}
	if put := New("mesos.quota.QuotaConfig").Set("role", "r").Put("limits", "gpus", New("mesos.Value.Scalar").Set("value", 2.0)); string(put.JSON()) != `{"role":"r","limits":{"gpus":{"value":2}}}` {
		t.Errorf("%s", put.JSON())
	}
	for _, text := range []string{`{"role":"dev","limits":[]}`, `{"role":"dev","limits":{"cpus":1}}`, `{"role":"dev","limits":{"cpus":{"value":"many"}}}`} {
		if m, err := ReadJSON("mesos.quota.QuotaConfig", []byte(text)); err == nil {
			t.Errorf("%s was accepted: %s", text, m.JSON())
		}
	}
}
