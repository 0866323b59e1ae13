// Loads a service and measures it: callers that post batches one after another. Outside the proof.
//
//	load -urls http://127.0.0.1:8450 -token TOKEN -callers 16 -batch 100 -seconds 10 [-rate 1500] [-keys] [-count 300000]
package main

import (
	"bytes"
	"flag"
	"fmt"
	"io"
	"net/http"
	"os"
	"sort"
	"strings"
	"sync"
	"time"
)

type result struct {
	times []time.Duration
	fails int
	why   string
}

func main() {
	urls := flag.String("urls", "http://127.0.0.1:8450", "gateways, with commas: callers are spread over them")
	token := flag.String("token", "", "a token with the right to operate")
	callers := flag.Int("callers", 16, "callers side by side")
	batch := flag.Int("batch", 100, "events in a batch")
	seconds := flag.Float64("seconds", 10, "how long")
	keys := flag.Bool("keys", false, "send an Idempotency-Key with each batch")
	rate := flag.Float64("rate", 0, "batches a second of all callers together; 0 is as many as can be")
	count := flag.Int("count", 0, "batches of all callers together, after which they stop; 0 is no bound")
	flag.Parse()
	http.DefaultTransport.(*http.Transport).MaxIdleConnsPerHost = *callers
	targets := strings.Split(*urls, ",")
	results := make([]result, *callers)
	begun := time.Now()
	end := begun.Add(time.Duration(*seconds * float64(time.Second)))
	var group sync.WaitGroup
	for n := range results {
		group.Add(1)
		go func(n int) {
			defer group.Done()
			if *rate > 0 { // they do not all call at once
				time.Sleep(time.Duration(float64(n) / *rate * float64(time.Second)))
			}
			results[n] = job{url: targets[n%len(targets)] + "/drf/v1/events", token: *token, caller: n, batch: *batch, keys: *keys, end: end,
				rate: *rate / float64(*callers), count: *count / *callers}.run()
		}(n)
	}
	group.Wait()
	tell(results, *callers, *batch, time.Since(begun))
}

// job is the work of one caller.
type job struct {
	url, token    string
	caller, batch int
	keys          bool
	end           time.Time
	rate          float64
	count         int
}

// run posts batches until the end, at a rate or each after the answer to the one before.
func (j job) run() (r result) {
	next := time.Now()
	for number := 0; time.Now().Before(j.end) && (j.count == 0 || number < j.count); number++ {
		if j.rate > 0 {
			time.Sleep(time.Until(next))
			next = next.Add(time.Duration(float64(time.Second) / j.rate))
		}
		begun, key := time.Now(), ""
		if j.keys {
			key = fmt.Sprintf("load-%d-%d-%d", j.end.UnixNano(), j.caller, number)
		}
		if why := post(j.url, j.token, key, lines(j.caller, number, j.batch)); why != "" {
			r.fails++
			r.why = why
			time.Sleep(10 * time.Millisecond)
			continue
		}
		r.times = append(r.times, time.Since(begun))
	}
	return r
}

// lines are events that leave the cluster small: agents come, change and go.
func lines(caller, number, batch int) []byte {
	var text bytes.Buffer
	for k := 0; k < batch; k++ {
		name := fmt.Sprintf("c%d-%d", caller, k/3)
		switch (number*batch + k) % 3 {
		case 0:
			fmt.Fprintf(&text, `{"event":"add_agent","agent":"%s","total":"cpus:4;mem:1024"}`, name)
		case 1:
			fmt.Fprintf(&text, `{"event":"set_agent","agent":"%s","total":"cpus:8;mem:2048"}`, name)
		default:
			fmt.Fprintf(&text, `{"event":"remove_agent","agent":"%s"}`, name)
		}
		text.WriteByte('\n')
	}
	return text.Bytes()
}

func post(url, token, key string, body []byte) string {
	request, err := http.NewRequest(http.MethodPost, url, bytes.NewReader(body))
	if err != nil {
		return err.Error()
	}
	request.Header.Set("Authorization", "Bearer "+token)
	if key != "" {
		request.Header.Set("Idempotency-Key", key)
	}
	answer, err := http.DefaultClient.Do(request)
	if err != nil {
		return err.Error()
	}
	defer answer.Body.Close()
	text, err := io.ReadAll(answer.Body)
	if err != nil {
		return err.Error()
	}
	if answer.StatusCode != 200 {
		return fmt.Sprintf("%d %s", answer.StatusCode, text)
	}
	if got, want := bytes.Count(text, []byte("\n")), bytes.Count(body, []byte("\n")); got != want {
		return fmt.Sprintf("%d replies to %d lines", got, want)
	}
	return ""
}

func tell(results []result, callers, batch int, took time.Duration) {
	var times []time.Duration
	fails, why := 0, ""
	for _, r := range results {
		times = append(times, r.times...)
		if fails += r.fails; r.why != "" {
			why = r.why
		}
	}
	sort.Slice(times, func(i, j int) bool { return times[i] < times[j] })
	if len(times) == 0 {
		fmt.Println("nothing was answered:", why)
		os.Exit(1)
	}
	at := func(part float64) float64 {
		return times[int(part*float64(len(times)-1))].Seconds() * 1000
	}
	fmt.Printf("%d callers, batches of %d: %.0f events/s, %.0f batches/s; ms: median %.1f, 99th percentile %.1f, longest %.1f; %d failed %s\n",
		callers, batch, float64(len(times)*batch)/took.Seconds(), float64(len(times))/took.Seconds(), at(.5), at(.99), at(1), fails, why)
}
