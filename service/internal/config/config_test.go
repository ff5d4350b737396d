package config

import (
	"path/filepath"
	"strings"
	"testing"
	"time"

	"enfd/internal/enftest"
)

func TestRead(t *testing.T) {
	folder := t.TempDir()
	path := enftest.Write(t, folder, "c.json",
		`{"signature": "a.sig", "policy": "/p", "data": "d", "tick": "0s", "unit": "1ms", "changes_file": "-"}`)
	c, err := Read(path)
	if err != nil {
		t.Fatal(err)
	}
	if err := c.Check(); err != nil {
		t.Fatal(err)
	}
	if c.Signature != filepath.Join(folder, "a.sig") || c.Policy != "/p" || c.ChangesFile != "-" || c.Tick.Duration != 0 ||
		c.Unit.Duration != time.Millisecond || c.Listen != "127.0.0.1:8787" {
		t.Errorf("%+v", c)
	}
}

func TestRefused(t *testing.T) {
	wanted := `"signature": "s", "policy": "p", "data": "d"`
	for text, want := range map[string]string{
		`{}`:                                "signature is wanted",
		`{` + wanted + `} {}`:               "something stands behind",
		`{` + wanted + `, "x": 1}`:          "unknown field",
		`{` + wanted + `, "tick": "soon"}`:  "invalid duration",
		`{` + wanted + `, "unit": "1us"}`:   "unit is",
		`{` + wanted + `, "time": "x"}`:     "time is",
		`{` + wanted + `, "unknown": "x"}`:  "unknown is",
		`{` + wanted + `, "tick": "-1s"}`:   "below 0",
		`{` + wanted + `, "streams": 0}`:    "a limit is 0",
		`{` + wanted + `, "rate": -1}`:      "rate is below 0",
		`{` + wanted + `, "timeout": "0s"}`: "timeout",
		`{` + wanted + `, "listen": ""}`:    "listen is wanted",
	} {
		c, err := Read(enftest.Write(t, t.TempDir(), "c.json", text))
		if err == nil {
			err = c.Check()
		}
		if err == nil || !strings.Contains(err.Error(), want) {
			t.Errorf("%s: %v in place of %s", text, err, want)
		}
	}
}
