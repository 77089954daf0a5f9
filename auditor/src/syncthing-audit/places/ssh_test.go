package places

import (
	"errors"
	"os"
	"path/filepath"
	"strings"
	"testing"
	"time"

	"syncthing-audit/exit"
)

// What ssh's configuration sets is left alone.
func TestOptionsOfSSH(t *testing.T) {
	const all = "-o ConnectTimeout=20 -o ServerAliveInterval=15 -o ServerAliveCountMax=4"
	cases := []struct{ told, options string }{
		{"", all},
		{"connecttimeout none\nserveraliveinterval 0\nserveralivecountmax 3\n", all},
		{"connecttimeout 5\nserveraliveinterval 0\n", "-o ServerAliveInterval=15 -o ServerAliveCountMax=4"},
		{"ConnectTimeout none\nServerAliveInterval 300\n", "-o ConnectTimeout=20"},
		{"connecttimeout 5\nserveraliveinterval 300\n", ""},
	}
	for _, row := range cases {
		if told := strings.Join(missingOptions(row.told), " "); told != row.options {
			t.Errorf("%q: %q", row.told, told)
		}
	}
	room := t.TempDir()
	text := "#!/bin/sh\n[ \"$*\" = '-G laptop' ] && echo connecttimeout 7 && exit 0\necho connecttimeout 7\nexit 1\n"
	if err := os.WriteFile(filepath.Join(room, "ssh"), []byte(text), 0o700); err != nil {
		t.Fatal(err)
	}
	t.Setenv("PATH", room+":"+os.Getenv("PATH"))
	for host, expected := range map[string]string{"laptop": "-o ServerAliveInterval=15 -o ServerAliveCountMax=4", "off": all} {
		if told := strings.Join(optionsOfSSH(host), " "); told != expected {
			t.Errorf("%s: %q", host, told)
		}
	}
}

// tellings keeps what is told and when, and closes a channel once that is twice.
type tellings struct {
	lines []string
	times []time.Time
	twice chan bool
}

func (t *tellings) Write(text []byte) (int, error) {
	t.lines, t.times = append(t.lines, string(text)), append(t.times, time.Now())
	if len(t.lines) == 2 {
		close(t.twice)
	}
	return len(text), nil
}

// Whoever is awaited is told again, after a longer time, and nobody who has answered.
func TestWhoIsAwaited(t *testing.T) {
	log, ended, began := &tellings{twice: make(chan bool)}, make(chan int, 1), time.Now()
	run := &running{places: []*place{{given: "quick:"}, {given: "slow:"}}, log: log, patience: 20 * time.Millisecond}
	ended <- 0
	go func() {
		<-log.twice
		ended <- 1
	}()
	if err := run.await("first look", ended, make([]error, 2), 2); err != nil {
		t.Fatal(err)
	}
	told := log.lines
	if first, second := log.times[0].Sub(began), log.times[1].Sub(began); first < run.patience || second < 3*run.patience {
		t.Errorf("told after %v and %v: %q", first, second, told)
	}
	for _, line := range told {
		if !strings.HasPrefix(line, "syncthing-audit: first look: waiting for slow: for ") {
			t.Errorf("%q", line)
		}
	}
	log.lines, run.patience = nil, time.Hour
	if err := run.all("first look", func(int) error { return nil }); err != nil || len(log.lines) > 0 {
		t.Errorf("%v, %q", err, log.lines)
	}
}

// A place that fails is told while the others are awaited, which may take hours; the last one is told by the error alone. Each is told once.
func TestWhoFails(t *testing.T) {
	const off = "syncthing-audit: first look: off. There will be no answer; the other devices are awaited, Ctrl-C ends that\n"
	for _, row := range []struct {
		last           int // of the two places
		errs           []error
		log, told, why string
	}{
		{0, []error{errors.New("off"), nil}, "", "off", "the last one fails"},
		{1, []error{errors.New("off"), nil}, off, exit.ErrTold.Error(), "the first one fails"},
		{1, []error{errors.New("off"), errors.New("lost")}, off, "lost", "both fail"},
	} {
		var log strings.Builder
		ended := make(chan int, 2)
		ended <- 1 - row.last
		ended <- row.last
		run := &running{places: []*place{{given: "off:"}, {given: "on:"}}, log: &log, patience: time.Hour}
		err := run.await("first look", ended, row.errs, 2)
		if err == nil || err.Error() != row.told || log.String() != row.log {
			t.Errorf("%s: %v, %q", row.why, err, log.String())
		}
	}
}
