package command

import (
	"os"
	"path/filepath"
	"strings"
	"testing"

	"syncthing-audit/exit"
)

// A part is shown as lines of JSON, and nothing that a terminal obeys. Where it ends in the middle, that is told behind what comes before it.
func TestShowingAPart(t *testing.T) {
	from := stoppedParts(1)[0]
	from.Head.Folders[0].Label = strings.Join(payloads, "")
	path := filepath.Join(t.TempDir(), "laptop.part")
	from.write(t, path)
	shown := func(words ...string) (int, string, string) {
		var output, log strings.Builder
		status := Run(append([]string{"part", "--show"}, words...), &output, &log)
		return status, output.String(), log.String()
	}
	status, told, said := shown(path)
	if status != exit.Done || said != "" || told != from.inLines(t) || strings.Count(told, "\n") != 1+len(from.Lines) {
		t.Errorf("%d, %s\n%s", status, said, told)
	}
	checkPrinted(t, "a part that is shown", told)
	whole := from.written(t)
	if err := os.WriteFile(path, whole[:len(whole)-1], 0o600); err != nil {
		t.Fatal(err)
	}
	if status, before, said := shown(path); status != exit.Refused || before != told || !strings.Contains(said, path+": line 10 of the part: the part ends in the middle") {
		t.Errorf("%d, %s\n%s", status, said, before)
	}
	for _, words := range [][]string{{path, "--jobs", "1"}, {path, "--home", "x"}, {path, "-o", "x"}, {""}, {}} {
		if status, told, said := shown(words...); status != exit.Usage || told != "" || said == "" {
			t.Errorf("%q: %d, %s", words, status, said)
		}
	}
}
