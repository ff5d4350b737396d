package main

import (
	"context"
	"crypto/rand"
	"encoding/hex"
	"errors"
	"fmt"
	"io"
	"io/fs"
	"log"
	"net"
	"net/http"
	"os"
	"path/filepath"
	"strings"
	"time"

	"enfd/internal/api"
	"enfd/internal/config"
	"enfd/internal/disk"
	"enfd/internal/enforcement"
	"enfd/internal/eventlog"
	"enfd/internal/quarantine"
)

// maxQuarantine is the number of bytes after which the quarantine begins a new file.
const maxQuarantine = 64 << 20

// serve runs the service until ctx ends.
func serve(ctx context.Context, c config.Config, errOut io.Writer) error {
	logger := eventlog.New(errOut)
	enforcer, err := enforcement.Open(enforcement.Options{Config: c, Now: time.Now, Log: logger})
	if err != nil {
		return err
	}
	// Run closes what Open has opened, also where it is told to end at once.
	running, end := context.WithCancel(context.Background())
	defer end()
	abandon := func(err error) error {
		end()
		_ = enforcer.Run(running)
		return err
	}
	tokens, err := readTokens(c)
	if err != nil {
		return abandon(err)
	}
	aside, err := quarantine.Open(filepath.Join(c.Data, "quarantine.jsonl"), maxQuarantine)
	if err != nil {
		return abandon(err)
	}
	defer aside.Close()
	listener, err := net.Listen("tcp", c.Listen)
	if err != nil {
		return abandon(fmt.Errorf("listen: %w", err))
	}
	handler := api.New(enforcer, api.Options{Config: c, Tokens: tokens, Log: logger, Quarantine: aside})
	server := &http.Server{
		Handler: handler, ConnContext: api.ConnContext,
		ReadHeaderTimeout: c.Timeout.Duration, IdleTimeout: 2 * time.Minute, MaxHeaderBytes: 16 << 10,
		ErrorLog: log.New(serverLog{logger}, "", 0),
	}
	enforced := make(chan error, 1)
	go func() { enforced <- enforcer.Run(running) }()
	served := make(chan error, 1)
	go func() { served <- server.Serve(listener) }()
	logger.Info("enfd listens", "address", listener.Addr().String(), "data", c.Data)

	var fault error
	select {
	case <-ctx.Done():
		logger.Info("enfd ends")
	case fault = <-enforced:
		logger.Error("nothing more can be decided", "error", fault)
		enforced <- nil
	case fault = <-served:
	}
	// The producers go first: when nothing comes any more the checkpoint has all.
	handler.End()
	closing, cancel := context.WithTimeout(context.Background(), c.EndTimeout.Duration)
	defer cancel()
	if err := server.Shutdown(closing); err != nil {
		logger.Warn("some requests were cut off", "error", err)
		server.Close()
	}
	end()
	if err := <-enforced; fault == nil {
		fault = err
	}
	if fault == nil {
		logger.Info("enfd has ended", "checkpoint", true)
	}
	return fault
}

// readTokens reads the tokens. Where no file is named for writes, one is made in the folder of data.
func readTokens(c config.Config) (api.Tokens, error) {
	var tokens api.Tokens
	path := c.WriteTokenFile
	if path == "" {
		path = filepath.Join(c.Data, "token")
		if _, err := os.Stat(path); errors.Is(err, fs.ErrNotExist) {
			random := make([]byte, 32)
			if _, err := rand.Read(random); err != nil {
				return tokens, fmt.Errorf("make a token: %w", err)
			}
			if err := disk.WriteFile(path, []byte(hex.EncodeToString(random)+"\n"), 0o600); err != nil {
				return tokens, err
			}
		}
	}
	write, err := readToken(path)
	if err != nil {
		return tokens, err
	}
	tokens.Write = write
	if c.ReadTokenFile != "" {
		tokens.Read, err = readToken(c.ReadTokenFile)
	}
	return tokens, err
}

func readToken(path string) (string, error) {
	text, err := os.ReadFile(path)
	if err != nil {
		return "", fmt.Errorf("read a token: %w", err)
	}
	token := strings.TrimSpace(string(text))
	if len(token) < 16 {
		return "", fmt.Errorf("the token in %s has fewer than 16 characters", path)
	}
	return token, nil
}

// serverLog hands the lines of net/http on to the log.
type serverLog struct{ logger *eventlog.Logger }

func (l serverLog) Write(line []byte) (int, error) {
	l.logger.Warn("http", "line", strings.TrimSpace(string(line)))
	return len(line), nil
}
