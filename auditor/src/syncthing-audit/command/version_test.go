package command

import (
	"os"
	"strings"
	"testing"

	"syncthing-audit/exit"
	"syncthing-audit/release"
)

// The version is that of the release.
func TestVersion(t *testing.T) {
	manifest, err := os.ReadFile("../../../../tools/release/manifest")
	if err != nil {
		t.Skip(err)
	}
	var written strings.Builder
	if status := Run([]string{"--version"}, &written, &written); status != exit.Done || written.String() != "syncthing-audit "+release.Version+"\n" {
		t.Errorf("%d: %q", status, written.String())
	}
	if !strings.HasPrefix(string(manifest), "version "+release.Version+"\n") {
		t.Errorf("the release's manifest doesn't begin with version %s", release.Version)
	}
}

// Each wrong use is told with a reason.
func TestReasonsOfUsage(t *testing.T) {
	t.Setenv("HOME", t.TempDir())
	for words, reason := range map[string]string{
		"":                            "no command is given",
		"now":                         `"now" is no command`,
		"check":                       "no home and no part is given",
		"check --lines --json x":      "choose one",
		"check --nothing x":           "-nothing",
		"part":                        "no Syncthing home is at ",
		"part ~/laptop":               "stands behind no flag: a home stands behind --home, and the part behind -o",
		"part --home x --home y":      "a part is made of one --home",
		"check --jobs 0 x":            "--jobs is at least 1",
		"check --leave-out much x":    `"much" is none of`,
		"sum":                         "'sum' has one directory",
		"sum --folder x y":            "--folder, --names and --slice are for 'export'",
		"sum --names x y":             "--folder, --names and --slice are for 'export'",
		"sum --slice 1/7 y":           "--folder, --names and --slice are for 'export'",
		"export --bytes --into x y":   "parts have no bytes",
		"part --begin --end --home x": "the second one comes after the first looks",
		"part --end --home x":         "--end needs --tokens FILE",
		"part --home x --tokens x":    "--tokens is for --end",
		"part --home x --rescan":      "--rescan is for --begin",
		"part --begin --home x --leave-out absent": "--leave-out is for 'check'",
		"run":                      "no device is given",
		"run --home x":             "places without --home",
		"run --still -1 x":         "--still is at least 0",
		"run :x":                   "names no machine",
		"run -- -oProxyCommand=x:": "names no machine",
		"run x: x:":                "is given twice",
	} {
		var output, log strings.Builder
		status := Run(strings.Fields(words), &output, &log)
		if status != exit.Usage || output.String() != "" || !strings.Contains(log.String(), reason) {
			t.Errorf("%q has status %d and tells %q", words, status, log.String())
		}
	}
}

// A directory that is no home is asked about.
func TestWhatIsNoHome(t *testing.T) {
	var output, log strings.Builder
	status := Run([]string{"part", "--home", t.TempDir()}, &output, &log)
	if status != exit.Refused || !strings.Contains(log.String(), "is this a Syncthing home?") {
		t.Errorf("%d: %s", status, log.String())
	}
}
