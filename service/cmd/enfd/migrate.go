package main

import (
	"context"
	"fmt"
	"io"
	"os"

	"enfd/internal/config"
	"enfd/internal/disk"
	"enfd/internal/enforcement"
)

// shown is the number of lines of a kind that are shown.
const shown = 50

// migrate tries a policy on all that came in since the beginning, and goes over to it where it is told to.
func migrate(ctx context.Context, c config.Config, policy, signature string, swap bool, out io.Writer) error {
	if signature == "" {
		signature = c.Signature
	}
	options := enforcement.Options{Config: c}
	options.Signature, options.Policy = signature, policy
	tried, err := enforcement.Migrate(ctx, options)
	if err != nil {
		return err
	}
	defer tried.Close()
	fmt.Fprintf(out, "%s\nwhat was emitted, with what is owed, under the new policy: %s\n", tried.Checked, tried.Verdict.Line)
	show(out, "would not have been done", tried.Fewer)
	show(out, "would have been done", tried.More)
	missing := make([]string, len(tried.Missing))
	for i, order := range tried.Missing {
		missing[i] = fmt.Sprintf("%s, due at %d by rule %s", order.Event, order.Time, order.Rule)
	}
	show(out, "becomes an order, as it was to be done by now and was not", missing)
	if !swap {
		fmt.Fprintln(out, "nothing was changed; -swap goes over to it")
		return nil
	}
	// The files are read before, so that nothing can fail between the two changes but their writing.
	texts := map[string][]byte{}
	for from, to := range map[string]string{policy: c.Policy, signature: c.Signature} {
		text, err := os.ReadFile(from)
		if err != nil {
			return fmt.Errorf("swap the policy: %w", err)
		}
		texts[to] = text
	}
	if err := tried.Swap(); err != nil {
		return err
	}
	for path, text := range texts {
		if err := disk.WriteFile(path, text, 0o644); err != nil {
			return fmt.Errorf("the data has gone over to the new policy, but the configuration's file has not: %w", err)
		}
	}
	fmt.Fprintf(out, "the new policy is in force; %s has it\n", c.Policy)
	return nil
}

func show(out io.Writer, what string, lines []string) {
	fmt.Fprintf(out, "%d %s\n", len(lines), what)
	for i, line := range lines {
		if i == shown {
			fmt.Fprintf(out, "  ... and %d more\n", len(lines)-shown)
			return
		}
		fmt.Fprintf(out, "  %s\n", line)
	}
}
