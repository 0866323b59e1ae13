// Calls and streams over HTTP, in protobuf. Outside the proof.

package main

import (
	"bufio"
	"bytes"
	"context"
	"fmt"
	"io"
	"net/http"
	"time"

	"gateway/internal/mesos/codec"
)

const schedulerPath, linkPath = "/api/v1/scheduler", "/drf/v1/agent-link"

// client calls gateways as one principal.
type client struct {
	url, principal, token string
	http                  *http.Client
}

func newClient(url, principal, token string) *client {
	return &client{url, principal, token, &http.Client{Transport: &http.Transport{MaxIdleConnsPerHost: 256}}}
}

func (c *client) post(ctx context.Context, path, stream string, call codec.Message) (*http.Response, error) {
	request, err := http.NewRequestWithContext(ctx, http.MethodPost, c.url+path, bytes.NewReader(call.Protobuf()))
	if err != nil {
		return nil, err
	}
	request.SetBasicAuth(c.principal, c.token)
	request.Header.Set("Content-Type", codec.TypeProtobuf)
	request.Header.Set("Accept", codec.TypeProtobuf)
	if stream != "" {
		request.Header.Set("Mesos-Stream-Id", stream)
	}
	return c.http.Do(request)
}

// call sends a call that is answered with 202.
func (c *client) call(ctx context.Context, path, stream string, call codec.Message) error {
	answer, err := c.post(ctx, path, stream, call)
	if err != nil {
		return err
	}
	defer answer.Body.Close()
	text, _ := io.ReadAll(io.LimitReader(answer.Body, 1000))
	if answer.StatusCode != http.StatusAccepted {
		return fmt.Errorf("%s: %s: %s", call.Enum("type"), answer.Status, text)
	}
	return nil
}

// listen sends a call that is answered with a stream, and calls a function with each event until the stream ends.
func (c *client) listen(ctx context.Context, path, kind string, call codec.Message, began func(stream string), on func(codec.Message)) error {
	answer, err := c.post(ctx, path, "", call)
	if err != nil {
		return err
	}
	defer answer.Body.Close()
	if answer.StatusCode != http.StatusOK {
		text, _ := io.ReadAll(io.LimitReader(answer.Body, 1000))
		return fmt.Errorf("%s: %s", answer.Status, text)
	}
	began(answer.Header.Get("Mesos-Stream-Id"))
	for in := bufio.NewReaderSize(answer.Body, 1<<16); ; {
		text, err := codec.ReadRecord(in, 64<<20)
		if err != nil {
			return err
		}
		e, err := codec.ReadProtobuf(kind, text)
		if err != nil {
			return err
		}
		on(e)
	}
}

func scalar(name string, value float64) codec.Message {
	return codec.New("mesos.Resource").Set("name", name).Set("type", "SCALAR").Set("scalar.value", value)
}

// wait waits until something is so, and returns how long that took.
func wait(what string, limit time.Duration, is func() bool) (time.Duration, error) {
	start := time.Now()
	for !is() {
		if time.Since(start) > limit {
			return 0, fmt.Errorf("%s: not within %v", what, limit)
		}
		time.Sleep(time.Millisecond)
	}
	return time.Since(start), nil
}
