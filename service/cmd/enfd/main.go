// Enfd is the enforcer as a service: it puts requests into one order, keeps them, has enf decide them, and answers.
//
// docs/SERVICE.md says how it is used.
package main

import (
	"context"
	"errors"
	"flag"
	"fmt"
	"io"
	"os"
	"os/signal"
	"syscall"

	"enfd/internal/config"
)

const usage = `usage: enfd [serve] -config FILE [-listen ADDRESS] [-program FILE] [-data FOLDER]
       enfd migrate-policy -config FILE -policy FILE [-signature FILE] [-swap]
       enfd audit -config FILE
`

func main() {
	ctx, stop := signal.NotifyContext(context.Background(), syscall.SIGTERM, syscall.SIGINT)
	err := run(ctx, os.Args[1:], os.Stdout, os.Stderr)
	stop()
	var usageErr usageError
	switch {
	case errors.As(err, &usageErr):
		if usageErr.text != "" {
			fmt.Fprintln(os.Stderr, "enfd:", usageErr.text)
		}
		fmt.Fprint(os.Stderr, usage)
		os.Exit(2)
	case err != nil:
		fmt.Fprintln(os.Stderr, "enfd:", err)
		os.Exit(1)
	}
}

// usageError says that the words of a call are wrong.
type usageError struct{ text string }

func (e usageError) Error() string { return e.text }

// run does what the words of a call say.
func run(ctx context.Context, args []string, out, errOut io.Writer) error {
	command := "serve"
	if len(args) > 0 && len(args[0]) > 0 && args[0][0] != '-' {
		command, args = args[0], args[1:]
	}
	flags := flag.NewFlagSet("enfd "+command, flag.ContinueOnError)
	flags.SetOutput(io.Discard)
	path := flags.String("config", "", "the configuration")
	program := flags.String("program", "", "the program enf, in place of the configuration's")
	data := flags.String("data", "", "the folder of data, in place of the configuration's")
	var (
		listen               *string
		newPolicy, signature *string
		swap                 *bool
	)
	switch command {
	case "serve":
		listen = flags.String("listen", "", "the address, in place of the configuration's")
	case "migrate-policy":
		newPolicy = flags.String("policy", "", "the new policy")
		signature = flags.String("signature", "", "the new signature, where it changes too")
		swap = flags.Bool("swap", false, "go over to it")
	case "audit":
	default:
		return usageError{"there is no command " + command}
	}
	if err := flags.Parse(args); err != nil {
		return usageError{err.Error()}
	}
	if flags.NArg() > 0 || *path == "" {
		return usageError{"-config FILE is wanted, and no further words"}
	}
	settings, err := config.Read(*path)
	if err != nil {
		return err
	}
	if *program != "" {
		settings.Program = *program
	}
	if *data != "" {
		settings.Data = *data
	}
	if listen != nil && *listen != "" {
		settings.Listen = *listen
	}
	if err := settings.Check(); err != nil {
		return err
	}
	switch command {
	case "serve":
		return serve(ctx, settings, errOut)
	case "migrate-policy":
		if *newPolicy == "" {
			return usageError{"-policy FILE is wanted"}
		}
		return migrate(ctx, settings, *newPolicy, *signature, *swap, out)
	default:
		return audit(ctx, settings, out)
	}
}
