package main

import (
	"fmt"
	"net/http"
	"os"
	"sort"
	"strconv"
	"strings"
	"sync"
	"testing"
	"time"
)

// TestLoad asks over 64 connections, for as many seconds as ENFD_LOAD says, and tells decisions a second and percentiles.
func TestLoad(t *testing.T) {
	seconds, err := strconv.Atoi(os.Getenv("ENFD_LOAD"))
	if err != nil {
		t.Skip("ENFD_LOAD=SECONDS asks for it")
	}
	connections := 64
	if text := os.Getenv("ENFD_CONNECTIONS"); text != "" {
		if connections, err = strconv.Atoi(text); err != nil {
			t.Fatal(err)
		}
	}
	s := start(t, configure(t, map[string]any{}))
	s.awaitReady()
	var (
		wait sync.WaitGroup
		mu   sync.Mutex
		all  []time.Duration
	)
	end := time.Now().Add(time.Duration(seconds) * time.Second)
	for worker := 0; worker < connections; worker++ {
		wait.Add(1)
		go func(worker int) {
			defer wait.Done()
			client := &http.Client{Transport: &http.Transport{MaxIdleConnsPerHost: 1}, Timeout: 10 * time.Second}
			defer client.CloseIdleConnections()
			var own []time.Duration
			for n := 0; time.Now().Before(end); n++ {
				name := []string{"consent", "use", "request", "use"}[n%4]
				body := fmt.Sprintf(`{"id":"%d-%d","events":[{"name":%q,"args":["user%d"]}]}`, worker, n, name, (n*31+worker)%1000)
				begun := time.Now()
				status, text, err := s.send(client, http.MethodPost, "/v1/steps", body)
				if err != nil || status != http.StatusOK {
					t.Errorf("status %d: %v: %s", status, err, text)
					return
				}
				own = append(own, time.Since(begun))
			}
			mu.Lock()
			defer mu.Unlock()
			all = append(all, own...)
		}(worker)
	}
	wait.Wait()
	sort.Slice(all, func(i, k int) bool { return all[i] < all[k] })
	at := func(share float64) time.Duration {
		return all[int(share*float64(len(all)-1))].Round(10 * time.Microsecond)
	}
	t.Logf("%d connections: %d decisions a second; median %v, 99th percentile %v, 99.9th %v, most %v",
		connections, len(all)/seconds, at(0.5), at(0.99), at(0.999), at(1))
	_, text, err := s.send(http.DefaultClient, http.MethodGet, "/metrics", "")
	if err != nil {
		t.Fatal(err)
	}
	t.Log(sums(string(text)))
	t.Logf("processor time a decision: the service %s µs, enf %s µs, the rest of the client's side not counted",
		perDecision(metric(t, s, "process_cpu_seconds_total"), len(all)), perDecision(cpuOfChildren(s), len(all)))
	s.end()
}

func perDecision(seconds string, decisions int) string {
	number, err := strconv.ParseFloat(seconds, 64)
	if err != nil || decisions == 0 {
		return "?"
	}
	return fmt.Sprintf("%.0f", number/float64(decisions)*1e6)
}

// cpuOfChildren gives the processor time of the service's programs, in seconds.
func cpuOfChildren(s *service) string {
	ticks := 0
	for _, child := range children(s) {
		text, err := os.ReadFile(fmt.Sprintf("/proc/%d/stat", child))
		if err != nil {
			continue
		}
		// Behind the name in parentheses user and system time are the 12th and the 13th field.
		fields := strings.Fields(string(text[strings.LastIndexByte(string(text), ')')+1:]))
		for _, field := range fields[11:13] {
			if number, err := strconv.Atoi(field); err == nil {
				ticks += number
			}
		}
	}
	return fmt.Sprintf("%.2f", float64(ticks)/100)
}
