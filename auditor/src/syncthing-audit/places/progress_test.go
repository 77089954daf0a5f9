package places

import (
	"io"
	"strings"
	"testing"
	"time"

	"syncthing-audit/commandline"
)

// What a first look tells of its progress, by ssh as here, goes into the line, and isn't retold. A program that doesn't know the flag isn't given it.
func TestProgressOfALook(t *testing.T) {
	for _, row := range []struct {
		tells     bool
		line, log string
	}{{true, "hashed 10.0 of 10.0 GB", "syncthing-audit: laptop: the disk is slow\n"}, {false, "", "syncthing-audit: laptop: the disk is slow\n"}} {
		there := standInForSSH(t, `case "$*" in *--progress*) echo "syncthing-audit: hashed 0 of 10000000000 bytes" >&2; echo "syncthing-audit: hashed 10000000000 of 10000000000 bytes" >&2;; esac
			echo "syncthing-audit: the disk is slow" >&2; echo part`)
		there.tells = row.tells
		var log strings.Builder
		run := &running{asked: commandline.Options{Steps: true}, places: []*place{there}, room: t.TempDir(), log: &log, progress: io.Discard}
		if err := run.begin(0); err != nil || log.String() != row.log {
			t.Errorf("%q, %v", log.String(), err)
		}
		if line := run.tally.Line(time.Unix(1700000000, 0)); line != row.line {
			t.Errorf("%q, not %q", line, row.line)
		}
	}
	there := &place{host: "laptop", ssh: []string{"ssh"}, tells: true}
	if words := there.begin(commandline.Options{}); strings.Contains(strings.Join(words, " "), "--progress") {
		t.Errorf("nobody reads it: %q", words)
	}
}
