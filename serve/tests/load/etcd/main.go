// Loads a bare etcd, to compare the service with it: clients that put single keys one after another, as large as a message of one event. Outside
// the proof.
//
//	etcd --data-dir FOLDER
//	load -endpoints http://127.0.0.1:2379 -clients 64 -seconds 10 [-size 200] [-count 100000]
package main

import (
	"context"
	"flag"
	"fmt"
	"os"
	"sort"
	"strings"
	"sync"
	"time"

	"go.etcd.io/etcd/clientv3"
)

func main() {
	endpoints := flag.String("endpoints", "http://127.0.0.1:2379", "members, with commas")
	clients := flag.Int("clients", 64, "clients side by side, each with a connection")
	seconds := flag.Float64("seconds", 10, "how long")
	size := flag.Int("size", 200, "bytes of a value")
	count := flag.Int("count", 0, "puts of all clients together, after which they stop; 0 is no bound")
	flag.Parse()
	if err := run(strings.Split(*endpoints, ","), *clients, *size, *count, time.Duration(*seconds*float64(time.Second))); err != nil {
		fmt.Fprintln(os.Stderr, "load:", err)
		os.Exit(1)
	}
}

func run(endpoints []string, clients, size, count int, within time.Duration) error {
	value := strings.Repeat("x", size)
	times, faults := make([][]time.Duration, clients), make([]error, clients)
	begun := time.Now()
	ctx, cancel := context.WithTimeout(context.Background(), within+10*time.Second)
	defer cancel()
	var group sync.WaitGroup
	for n := range times {
		client, err := clientv3.New(clientv3.Config{Endpoints: []string{endpoints[n%len(endpoints)]}, DialTimeout: 5 * time.Second})
		if err != nil {
			return err
		}
		defer client.Close()
		group.Add(1)
		go func(n int) {
			defer group.Done()
			for k := 0; time.Since(begun) < within && (count == 0 || k < count/clients) && faults[n] == nil; k++ {
				start := time.Now()
				_, faults[n] = client.Put(ctx, fmt.Sprintf("load/%d/%032d", n, k), value)
				times[n] = append(times[n], time.Since(start))
			}
		}(n)
	}
	group.Wait()
	took, all := time.Since(begun), []time.Duration(nil)
	for n := range times {
		if faults[n] != nil {
			return faults[n]
		}
		all = append(all, times[n]...)
	}
	sort.Slice(all, func(i, j int) bool { return all[i] < all[j] })
	at := func(part float64) float64 { return all[int(part*float64(len(all)-1))].Seconds() * 1000 }
	fmt.Printf("%d clients, values of %d bytes: %.0f puts/s; ms: median %.1f, 99th percentile %.1f, longest %.1f\n", clients, size, float64(len(all))/took.Seconds(), at(.5), at(.99), at(1))
	return nil
}
