package main

import (
	"context"
	"fmt"
	"io"
	"os"

	"enfd/internal/config"
	"enfd/internal/enforcement"
)

// audit holds what was enforced and is archived against the policy that it was enforced under.
func audit(ctx context.Context, c config.Config, out io.Writer) error {
	epoch, err := enforcement.CurrentEpoch(c.Data)
	if err != nil {
		return err
	}
	for number := 0; number <= epoch.Number; number++ {
		each := enforcement.EpochOf(c.Data, number)
		if _, err := os.Stat(each.Policy()); err != nil {
			continue
		}
		verdict, err := each.Audit(ctx, c.Program, each.Signature(), each.Policy())
		if err != nil {
			return err
		}
		fmt.Fprintf(out, "epoch %d, %d steps up to %d: %s\n", number, verdict.Steps, verdict.Clock, verdict.Line)
		if !verdict.Holds {
			return fmt.Errorf("epoch %d: %s", number, verdict.Line)
		}
	}
	return nil
}
