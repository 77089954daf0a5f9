package places

import (
	"errors"
	"os"
	"path/filepath"
	"strings"
	"sync"
	"testing"
	"time"

	"syncthing-audit/bounded"
	"syncthing-audit/commandline"
)

// standInForSSH gives a place of another machine, to which this script leads in ssh's place.
func standInForSSH(t *testing.T, script string) *place {
	path := filepath.Join(t.TempDir(), "ssh")
	if err := os.WriteFile(path, []byte("#!/bin/sh\n"+script+"\n"), 0o700); err != nil {
		t.Fatal(err)
	}
	return &place{given: "laptop:", host: "laptop", ssh: []string{path, "laptop"}}
}

// A machine that writes without an end, hangs or trickles is refused with words that name it, in the question and in both looks.
func TestAMachineWithoutAnEnd(t *testing.T) {
	limits := bounded.Limits{Output: 1 << 20, Told: 1 << 16, Silence: 700 * time.Millisecond, Whole: 2 * time.Second}
	var ended sync.WaitGroup
	for _, row := range []struct{ why, script, told string }{
		{"writes forever", "exec cat /dev/zero", "wrote more output than any real device does (over 1048576 bytes)"},
		{"says forever", "exec yes >&2", "wrote more standard error than any real device does (over 65536 bytes)"},
		{"hangs", "exec sleep 600", "wrote nothing for 700ms"},
		{"trickles", "while :; do printf x; sleep 0.1; done", "wasn't done after 2s"},
	} {
		there := standInForSSH(t, row.script)
		for look, words := range map[string][]string{"about": there.about(commandline.Options{}), "begin": there.begin(commandline.Options{}), "end": there.end(commandline.Options{})} {
			ended.Add(1)
			go func(why, told, look, path string, words []string) {
				defer ended.Done()
				_, err := there.run(words, strings.NewReader(""), path, limits)
				var passed *bounded.Passed
				if !errors.As(err, &passed) || err.Error() != "refused: laptop: its command "+told+", and was ended" {
					t.Errorf("%s, as one %s: %v", look, why, err)
				}
				if about, err := os.Stat(path); err != nil || about.Size() > limits.Output {
					t.Errorf("%s, as one %s: %v, %v", look, why, about, err)
				}
			}(row.why, row.told, look, filepath.Join(t.TempDir(), look), words)
		}
	}
	ended.Wait()
}

// Real folders are within the limits: a part of 10,000,000 names, and a file that takes a day to be hashed.
func TestLimitsOfRealFolders(t *testing.T) {
	end := boundsOfEnd(3600)
	if boundsOfBegin.Output < 3<<30 || end.Output < 3<<30 || boundsOfBegin.Silence < 24*time.Hour || boundsOfBegin.Whole < 7*24*time.Hour || end.Silence < time.Hour {
		t.Errorf("%+v, %+v", boundsOfBegin, end)
	}
}

// Of what a failed command says without an end, its beginning and its end are shown.
func TestShown(t *testing.T) {
	there := standInForSSH(t, "echo first >&2; head -c 100000 /dev/zero | tr '\\0' x >&2; echo last >&2; exit 1")
	_, err := there.run(there.about(commandline.Options{}), strings.NewReader(""), filepath.Join(t.TempDir(), "part"), boundsOfAbout)
	if err == nil || len(err.Error()) > 10000 || !strings.Contains(err.Error(), "exit status 1: first; x") || !strings.Contains(err.Error(), "[91819 bytes more]") ||
		!strings.HasSuffix(err.Error(), "xlast") {
		t.Errorf("%.200v", err)
	}
}
