package command

import (
	"io"
	"os"
	"path/filepath"
	"strings"
	"testing"

	"syncthing-audit/exit"
	"syncthing-audit/history"
)

// 'wanted' has a history, one folder and a time. It makes no history, and refuses what no audit found.
func TestWhatIsWanted(t *testing.T) {
	room := t.TempDir()
	kept := filepath.Join(room, "kept")
	opened, err := history.Open(kept)
	if err != nil {
		t.Fatal(err)
	}
	opened.Close()
	const at = "2026-11-30T03:00:05Z"
	for why, row := range map[string]struct {
		words  []string
		status int
		told   string
	}{
		"no history":      {[]string{"--folder", "docs", at}, exit.Usage, "one --folder ID"},
		"no folder":       {[]string{"--history", kept, at}, exit.Usage, "one --folder ID"},
		"two folders":     {[]string{"--history", kept, "--folder", "docs", "--folder", "pics", at}, exit.Usage, "one --folder ID"},
		"no time":         {[]string{"--history", kept, "--folder", "docs"}, exit.Usage, "the time that the answer tells"},
		"two times":       {[]string{"--history", kept, "--folder", "docs", at, at}, exit.Usage, "the time that the answer tells"},
		"another word":    {[]string{"--history", kept, "--folder", "docs", "yesterday"}, exit.Usage, "the time is one as 2026-"},
		"nothing is gone": {[]string{"--history", kept, "--folder", "docs", at}, exit.Refused, "refused: docs, " + at + ": no audit of that time found"},
		"none is there":   {[]string{"--history", filepath.Join(room, "other"), "--folder", "docs", at}, exit.Refused, "refused: there is no history"},
	} {
		var log strings.Builder
		if status := Run(append([]string{"wanted"}, row.words...), io.Discard, &log); status != row.status || !strings.Contains(log.String(), row.told) {
			t.Errorf("%s: %d, %s", why, status, log.String())
		}
	}
	if _, err := os.Stat(filepath.Join(room, "other")); !os.IsNotExist(err) {
		t.Error("a history was made")
	}
}
