package ownpart

import (
	"errors"
	"os"
	"path/filepath"
	"strings"
	"testing"

	"syncthing-audit/commandline"
	"syncthing-audit/fixture"
	"syncthing-audit/part"
)

// Each word goes with those kinds of parts alone for which it means something, and what doesn't go together is told by its flag.
func TestWhatGoesWithALook(t *testing.T) {
	kinds := map[string]commandline.Options{"part": {}, "--about": {About: true}, "--begin": {Begin: true}, "--end": {End: true, Tokens: []string{"-"}}}
	for _, row := range []struct {
		flag, goesWith string
		add            func(*commandline.Options)
	}{
		{"", "part --about --begin --end", func(*commandline.Options) {}},
		{"--about", "part --about", func(o *commandline.Options) { o.About = true }},
		{"--begin", "part --begin", func(o *commandline.Options) { o.Begin = true }},
		{"--end", "--end", func(o *commandline.Options) { o.End = true }},
		{"--tokens", "--end", func(o *commandline.Options) { o.Tokens = []string{"-"} }},
		{"--rescan", "--about --begin", func(o *commandline.Options) { o.Rescan = true }},
		{"--still", "--end", func(o *commandline.Options) { o.HasStill, o.Still = true, 3 }},
		{"--still", "--end", func(o *commandline.Options) { o.HasStill, o.Still = true, 0 }},
		{"--still", "", func(o *commandline.Options) { o.HasStill, o.Still = true, -0.5 }},
		{"--still is at least 0", "", func(o *commandline.Options) { o.Still = -0.5 }},
		{"--heed-input", "--begin", func(o *commandline.Options) { o.HeedsInput = true }},
		{"--progress", "part --begin", func(o *commandline.Options) { o.Steps = true }},
		{"--leave-out", "--end", func(o *commandline.Options) { o.LeaveOut = map[string]bool{part.Absent: true} }},
	} {
		for kind, asked := range kinds {
			row.add(&asked)
			err := CheckLooks(&asked)
			if taken := strings.Contains(" "+row.goesWith+" ", " "+kind+" "); (err == nil) != taken {
				t.Errorf("%s with %s: %v", row.flag, kind, err)
			}
			var wrong *commandline.WrongUsage
			if err != nil && (!errors.As(err, &wrong) || !strings.Contains(err.Error(), row.flag)) {
				t.Errorf("%s with %s is told as %v", row.flag, kind, err)
			}
		}
	}
}

// The home that Syncthing takes by itself is taken where there is one alone.
func TestTheDefaultHome(t *testing.T) {
	for _, row := range []struct{ homes, told string }{
		{"", "no Syncthing home is at "}, {".config/syncthing", ""}, {".local/state/syncthing", ""}, {".config/syncthing .local/state/syncthing", "homes are at "},
	} {
		user := t.TempDir()
		t.Setenv("HOME", user)
		homes := []string{}
		for _, home := range strings.Fields(row.homes) {
			homes = append(homes, filepath.Join(user, home))
			index := filepath.Join(user, home, fixture.NameOfIndex)
			err := os.MkdirAll(index, 0o700)
			if err == nil {
				err = os.WriteFile(filepath.Join(index, "CURRENT"), nil, 0o600)
			}
			if err != nil {
				t.Fatal(err)
			}
		}
		var asked commandline.Options
		err := TakeDefaultHome(&asked)
		if row.told == "" {
			if err != nil || len(asked.Homes) != 1 || asked.Homes[0] != homes[0] {
				t.Errorf("%s: %v, %v", row.homes, asked.Homes, err)
			}
			continue
		}
		var wrong *commandline.WrongUsage
		if !errors.As(err, &wrong) || !strings.HasPrefix(err.Error(), row.told+user) && !strings.HasPrefix(err.Error(), row.told+strings.Join(homes, " and ")+":") || len(asked.Homes) != 0 {
			t.Errorf("%s: %v", row.homes, err)
		}
	}
	t.Setenv("HOME", "")
	if err := TakeDefaultHome(&commandline.Options{}); err == nil {
		t.Error("a user without a home has one")
	}
}
