// Package config reads the service's one configuration file.
package config

import (
	"bytes"
	"encoding/json"
	"errors"
	"fmt"
	"io"
	"os"
	"path/filepath"
	"time"
)

// Duration is a time.Duration that is written as "5m" in JSON.
type Duration struct{ time.Duration }

// UnmarshalJSON reads a duration as time.ParseDuration does.
func (d *Duration) UnmarshalJSON(text []byte) error {
	var word string
	if err := json.Unmarshal(text, &word); err != nil {
		return fmt.Errorf("a duration is a text such as \"5m\": %w", err)
	}
	var err error
	d.Duration, err = time.ParseDuration(word)
	return err
}

// Config is the configuration. docs/SERVICE.md says what each field does.
type Config struct {
	Program   string `json:"program"`
	Signature string `json:"signature"`
	Policy    string `json:"policy"`
	Data      string `json:"data"`

	Listen         string   `json:"listen"`
	Hosts          []string `json:"hosts"`
	WriteTokenFile string   `json:"write_token_file"`
	ReadTokenFile  string   `json:"read_token_file"`

	Time    string   `json:"time"` // "service" or "caller"
	Unit    Duration `json:"unit"`
	Tick    Duration `json:"tick"`
	Unknown string   `json:"unknown"` // "refuse" or "pass"

	CheckpointEvery   Duration `json:"checkpoint_every"`
	CheckpointRecords uint64   `json:"checkpoint_records"`
	PendingEvery      Duration `json:"pending_every"`

	ChangesFile string `json:"changes_file"`
	ChangesKept int    `json:"changes_kept"`

	MaxBody    int64    `json:"max_body"`
	Rate       float64  `json:"rate"`
	Waiting    int      `json:"waiting"`
	Streams    int      `json:"streams"`
	Timeout    Duration `json:"timeout"`
	Redeliver  Duration `json:"redeliver"`
	EndTimeout Duration `json:"end_timeout"`
}

// CallerTime says whether requests bring their times.
func (c Config) CallerTime() bool { return c.Time == "caller" }

// Default gives the values of fields that a file does not have.
func Default() Config {
	return Config{
		Program: "enf",
		Listen:  "127.0.0.1:8787",
		Time:    "service", Unit: Duration{time.Second}, Tick: Duration{time.Second}, Unknown: "refuse",
		CheckpointEvery: Duration{5 * time.Minute}, CheckpointRecords: 100_000,
		PendingEvery: Duration{30 * time.Second},
		ChangesKept:  10_000,
		MaxBody:      1 << 20, Waiting: 4096, Streams: 64,
		Timeout: Duration{10 * time.Second}, Redeliver: Duration{time.Minute}, EndTimeout: Duration{time.Minute},
	}
}

// Read reads a file over the default values. Paths in it are taken from its folder.
func Read(path string) (Config, error) {
	text, err := os.ReadFile(path)
	if err != nil {
		return Config{}, fmt.Errorf("read the configuration: %w", err)
	}
	c := Default()
	decoder := json.NewDecoder(bytes.NewReader(text))
	decoder.DisallowUnknownFields()
	if err := decoder.Decode(&c); err != nil {
		return Config{}, fmt.Errorf("read the configuration %s: %w", path, err)
	}
	if _, err := decoder.Token(); err != io.EOF {
		return Config{}, fmt.Errorf("read the configuration %s: something stands behind the object", path)
	}
	folder := filepath.Dir(path)
	for _, field := range []*string{&c.Signature, &c.Policy, &c.Data, &c.WriteTokenFile, &c.ReadTokenFile} {
		if *field != "" && !filepath.IsAbs(*field) {
			*field = filepath.Join(folder, *field)
		}
	}
	if c.ChangesFile != "" && c.ChangesFile != "-" && !filepath.IsAbs(c.ChangesFile) {
		c.ChangesFile = filepath.Join(folder, c.ChangesFile)
	}
	return c, nil
}

// Check says what is wrong with a configuration.
func (c Config) Check() error {
	for _, field := range []struct{ name, value string }{
		{"signature", c.Signature}, {"policy", c.Policy}, {"data", c.Data}, {"program", c.Program}, {"listen", c.Listen},
	} {
		if field.value == "" {
			return fmt.Errorf("configuration: %s is wanted", field.name)
		}
	}
	switch {
	case c.Time != "service" && c.Time != "caller":
		return errors.New(`configuration: time is "service" or "caller"`)
	case c.Unknown != "refuse" && c.Unknown != "pass":
		return errors.New(`configuration: unknown is "refuse" or "pass"`)
	case c.Unit.Duration < time.Millisecond:
		// In smaller units the present is above the greatest time of a log.
		return errors.New("configuration: unit is at least 1ms")
	case c.Tick.Duration < 0 || c.CheckpointEvery.Duration <= 0 || c.PendingEvery.Duration < 0 || c.Redeliver.Duration < 0:
		return errors.New("configuration: a duration is below 0, or checkpoint_every is 0")
	case c.Timeout.Duration <= 0 || c.EndTimeout.Duration <= 0:
		return errors.New("configuration: timeout and end_timeout are above 0")
	case c.MaxBody <= 0 || c.Waiting <= 0 || c.Streams <= 0 || c.ChangesKept <= 0 || c.CheckpointRecords == 0:
		return errors.New("configuration: a limit is 0 or below")
	case c.Rate < 0:
		return errors.New("configuration: rate is below 0")
	}
	return nil
}
