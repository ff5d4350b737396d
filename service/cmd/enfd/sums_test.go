package main

import (
	"fmt"
	"strconv"
	"strings"
)

// sums gives the means of the histograms of a text of metrics.
func sums(text string) string {
	values := map[string]float64{}
	for _, line := range strings.Split(text, "\n") {
		name, number, _ := strings.Cut(line, " ")
		if value, err := strconv.ParseFloat(number, 64); err == nil {
			values[name] = value
		}
	}
	var out strings.Builder
	for _, name := range []string{"enfd_decision_seconds", "enfd_commit_seconds", "enfd_program_seconds"} {
		fmt.Fprintf(&out, "%s mean %.6f of %.0f; ", name, values[name+"_sum"]/values[name+"_count"], values[name+"_count"])
	}
	return out.String()
}
