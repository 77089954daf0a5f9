package command

import (
	"strings"
	"testing"

	"syncthing-audit/exit"
)

// What doesn't go with looks that go on, or that read so many bytes each.
func TestWhatGoesWithABudget(t *testing.T) {
	for _, row := range []struct {
		words, told string
	}{
		{"--budget 1GB --into x", "--into writes parts in place of an answer"}, {"--every 1d --into x", "--into writes parts in place of an answer"},
		{"--budget 1GB A --disk x", "--disk waits for a person"}, {"--every 1d A --disk x", "--disk waits for a person"},
		{"--budget 1GB --records", "--records reads none"}, {"--budget 20", "it is a number with kB, MB, GB or TB"}, {"--every day", "it is a number with s, m, h, d or w"},
	} {
		var log strings.Builder
		if status := Run(append([]string{"observe", "--home", t.TempDir()}, strings.Fields(row.words)...), &strings.Builder{}, &log); status != exit.Usage || !strings.Contains(log.String(), row.told) {
			t.Errorf("%s: %d, %s", row.words, status, log.String())
		}
	}
}

// A scan is asked of those alone whose REST APIs are named.
func TestRescanWantsRest(t *testing.T) {
	var log strings.Builder
	if status := Run([]string{"observe", "--rescan", "--home", t.TempDir()}, &log, &log); status != exit.Usage || !strings.Contains(log.String(), "--rescan asks the devices that --rest names") {
		t.Errorf("%d, %s", status, log.String())
	}
}
