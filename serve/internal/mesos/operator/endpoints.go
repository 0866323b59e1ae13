// The classic endpoints that change something: `/weights`, `/quota`, `/reserve`, `/unreserve` and `/teardown`. Outside the proof.

package operator

import (
	"encoding/json"
	"net/http"
	"net/url"
	"strings"

	"gateway/internal/api"
	"gateway/internal/mesos/codec"
)

// body reads the body of a call.
func body(c *api.Call) ([]byte, error) {
	text, release, err := c.Body()
	if err == nil {
		release()
	}
	return text, err
}

// messagesIn reads a JSON array of messages of a type.
func messagesIn(name string, text []byte) (list []codec.Message, err error) {
	var items []json.RawMessage
	if err := json.Unmarshal(text, &items); err != nil {
		return nil, err
	}
	for _, item := range items {
		m, err := codec.ReadJSON(name, item)
		if err != nil {
			return nil, err
		}
		list = append(list, m)
	}
	return list, nil
}

// weights answers GET and PUT.
func (o *Operator) weights(c *api.Call) error {
	if c.R.Method == http.MethodGet {
		if err := mayRead(c); err != nil {
			return err
		}
		v, err := o.view(c.R.Context())
		if err != nil {
			return err
		}
		return sendJSON(c, raws(v.weightMessages().List("weight_infos")))
	}
	text, err := body(c)
	if err != nil {
		return err
	}
	infos, err := messagesIn("mesos.WeightInfo", text)
	if err != nil {
		return api.Refuse(http.StatusBadRequest, "Failed to convert update weights request JSON into WeightInfo protobufs: %v", err)
	}
	return done(c, http.StatusOK, o.setWeights(c.R.Context(), c, infos))
}

// done writes the status of a change, unless it failed.
func done(c *api.Call, status int, err error) error {
	if err == nil {
		c.W.WriteHeader(status)
	}
	return err
}

// quota answers GET, POST, and DELETE of a role.
func (o *Operator) quota(c *api.Call) error {
	_, role, _ := strings.Cut(strings.TrimPrefix(c.R.URL.Path, "/master"), "/quota/")
	switch {
	case c.R.Method == http.MethodDelete && role == "":
		return api.Refuse(http.StatusBadRequest, "Failed to parse request path '%s': expected /quota/ROLE", c.R.URL.Path)
	case c.R.Method == http.MethodDelete:
		return done(c, http.StatusOK, o.removeLimit(c.R.Context(), c, role))
	case role != "":
		return api.Refuse(http.StatusNotFound, "there is no %s: GET and POST are of /quota", c.R.URL.Path)
	case c.R.Method == http.MethodPost:
		return o.postQuota(c)
	}
	if err := mayRead(c); err != nil {
		return err
	}
	v, err := o.view(c.R.Context())
	if err != nil {
		return err
	}
	status := v.quotaStatus()
	return sendJSON(c, object{"infos": raws(status.List("infos")), "configs": raws(status.List("configs"))})
}

// postQuota reads the older form of a quota, which has a guarantee, or the newer one with limits.
func (o *Operator) postQuota(c *api.Call) error {
	text, err := body(c)
	if err != nil {
		return err
	}
	var request struct {
		Guarantee []json.RawMessage          `json:"guarantee"`
		Limits    map[string]json.RawMessage `json:"limits"`
		Force     bool                       `json:"force"`
	}
	if err := json.Unmarshal(text, &request); err != nil {
		return api.Refuse(http.StatusBadRequest, "Failed to parse set quota request JSON: %v", err)
	}
	if len(request.Guarantee) > 0 {
		return o.setQuota(c.R.Context(), c, codec.Message{})
	}
	config, err := codec.ReadJSON("mesos.quota.QuotaConfig", text)
	if err != nil || request.Limits == nil {
		return api.Refuse(http.StatusBadRequest, "Failed to convert set quota request JSON into a protobuf: expected `role` and `limits` (%v)", err)
	}
	return done(c, http.StatusOK, o.setLimits(c.R.Context(), c, []codec.Message{config}, request.Force))
}

// form reads the fields of a form.
func form(c *api.Call) (url.Values, error) {
	text, err := body(c)
	if err != nil {
		return nil, err
	}
	fields, err := url.ParseQuery(strings.TrimSpace(string(text)))
	if err != nil {
		return nil, api.Refuse(http.StatusBadRequest, "Unable to decode query string: %v", err)
	}
	return fields, nil
}

func (o *Operator) reserve(c *api.Call) error   { return o.moveForm(c, "reserve") }
func (o *Operator) unreserve(c *api.Call) error { return o.moveForm(c, "unreserve") }

func (o *Operator) moveForm(c *api.Call, event string) error {
	fields, err := form(c)
	if err != nil {
		return err
	}
	switch {
	case !fields.Has("slaveId"):
		return api.Refuse(http.StatusBadRequest, "Missing 'slaveId' query parameter in the request body")
	case !fields.Has("resources"):
		return api.Refuse(http.StatusBadRequest, "Missing 'resources' query parameter in the request body")
	}
	list, err := messagesIn("mesos.Resource", []byte(fields.Get("resources")))
	if err != nil {
		return api.Refuse(http.StatusBadRequest, "Error in parsing 'resources' query parameter in the request body: %v", err)
	}
	return done(c, http.StatusAccepted, o.move(c.R.Context(), c, event, fields.Get("slaveId"), list))
}

func (o *Operator) teardown(c *api.Call) error {
	fields, err := form(c)
	if err != nil {
		return err
	}
	if !fields.Has("frameworkId") {
		return api.Refuse(http.StatusBadRequest, "Missing 'frameworkId' query parameter in the request body")
	}
	return done(c, http.StatusOK, o.removeFramework(c.R.Context(), c, fields.Get("frameworkId")))
}
