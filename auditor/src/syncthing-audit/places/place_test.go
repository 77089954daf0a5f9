package places

import (
	"os"
	"path/filepath"
	"strings"
	"testing"

	"syncthing-audit/choice"
	"syncthing-audit/commandline"
	"syncthing-audit/inputs"
	"syncthing-audit/shell"
)

// A place is a machine where a colon stands before any slash, and its command is one word for the shell there.
func TestPlaces(t *testing.T) {
	const usual = `PATH="$PATH:$HOME/.local/bin" nice -n 19 syncthing-audit part --begin --folder docs -o -`
	cases := []struct{ word, host, home, command string }{
		{"laptop:", "laptop", "", "ssh laptop 'audit part --end --tokens - --leave-out absent --folder docs -o -'"},
		{"ann@laptop:~/a b", "ann@laptop", "a b", "ssh ann@laptop 'audit part --end --tokens - --leave-out absent --home '\\''a b'\\'' --folder docs -o -'"},
		{"laptop:/srv/$HOME", "laptop", "/srv/$HOME", "ssh laptop 'audit part --end --tokens - --leave-out absent --home '\\''/srv/$HOME'\\'' --folder docs -o -'"},
		{"/srv/a:b", "", "/srv/a:b", "here part --end --tokens - --leave-out absent --home /srv/a:b --folder docs --paths -o -"},
		{"./home", "", "./home", "here part --end --tokens - --leave-out absent --home ./home --folder docs --paths -o -"},
	}
	for _, row := range cases {
		asked := commandline.Options{Parts: []string{row.word}, Folders: []string{"docs"}, Remote: "audit"}
		places, err := placesOf(asked)
		if err != nil {
			t.Fatal(err)
		}
		places[0].self, places[0].ssh = "here", []string{"ssh", places[0].host}
		if places[0].host != row.host || places[0].home != row.home || shell.Words(places[0].end(asked)) != row.command {
			t.Errorf("%s: %+v, %s", row.word, *places[0], shell.Words(places[0].end(asked)))
		}
		if begin := shell.Words(places[0].begin(asked)); !strings.Contains(begin, "nice -n 19 ") || !strings.Contains(begin, " part --begin ") {
			t.Errorf("%s begins with %s", row.word, begin)
		}
		asked.Remote, asked.DryRun = "", true
		if begin := places[0].begin(asked); places[0].home == "" && begin[len(begin)-1] != usual {
			t.Errorf("%s begins with %s, where nothing says how the program is called", row.word, begin)
		}
	}
}

// A device's database is named behind its home, to the question and to both looks. As of a home a tilde is the user's own directory there.
func TestPlacesWithADatabaseElsewhere(t *testing.T) {
	asked := commandline.Options{Parts: []string{"laptop:home", "nas:/srv/home", "./home"}, Data: map[int]string{0: "~/a b", 2: "data"}, Remote: "audit"}
	places, err := placesOf(asked)
	if err != nil {
		t.Fatal(err)
	}
	for at, told := range []string{" --home home --data 'a b' -o -", " --home /srv/home -o -", " --home ./home --data data --paths -o -"} {
		place := places[at]
		for _, words := range [][]string{place.about(asked), place.begin(asked), place.end(asked)} {
			command := shell.Words(words)
			if place.host != "" {
				command = words[len(words)-1]
			}
			if !strings.HasSuffix(command, told) {
				t.Error(command)
			}
		}
	}
}

// The question and both looks are of the names that are asked for: a program that knows no slice refuses the question.
func TestPlacesOfASlice(t *testing.T) {
	there, asked := &place{host: "laptop", ssh: []string{"ssh"}}, commandline.Options{Names: choice.Names{Prefix: "a b", Slice: 3, Slices: 7}, Remote: "audit"}
	for _, words := range [][]string{there.about(asked), there.begin(asked), there.end(asked)} {
		if command := words[len(words)-1]; !strings.HasSuffix(command, " --names 'a b' --slice 3/7 -o -") {
			t.Error(command)
		}
	}
}

// What a machine's shell prints before the part is told as what may be wrong; a part that is here has no shell.
func TestAPartBehindWhatAShellPrints(t *testing.T) {
	path := filepath.Join(t.TempDir(), "part")
	for _, text := range []string{"Welcome to laptop\nand a part", ""} {
		if err := os.WriteFile(path, []byte(text), 0o600); err != nil {
			t.Fatal(err)
		}
		_, err := inputs.HeadOf(path)
		told := (&place{host: "laptop"}).hint(err).Error()
		if !strings.Contains(told, "this is no part: ") || !strings.HasSuffix(told, "ssh laptop true is to print nothing") {
			t.Errorf("%q: %s", text, told)
		}
		if here := (&place{}).hint(err); here != err {
			t.Errorf("here: %v", here)
		}
	}
	if _, err := inputs.HeadOf(path + "-"); (&place{host: "laptop"}).hint(err) != err {
		t.Errorf("a file that isn't there: %v", err)
	}
}

// A word that is no directory here may be a machine without its colon; 'part' is one in the directory of this test.
func TestAMachineWithoutAColon(t *testing.T) {
	cases := []struct {
		word   string
		isTold bool
	}{{"laptop", true}, {"ann@laptop", true}, {"./laptop", false}, {"/laptop", false}, {"part", false}}
	here, err := os.Getwd()
	if err == nil {
		err = os.Chdir(t.TempDir())
	}
	if err == nil {
		err = os.Mkdir("part", 0o700)
	}
	if err != nil {
		t.Fatal(err)
	}
	defer os.Chdir(here)
	for _, row := range cases {
		_, err := placesOf(commandline.Options{Parts: []string{row.word}})
		if told := err != nil && strings.Contains(err.Error(), "a machine has a colon behind its name: "+row.word+":"); told != row.isTold {
			t.Errorf("%s: %v", row.word, err)
		}
	}
}

// How long a second look is to wait is told to a program that knows this, by what it said, and in the commands that are only written. Where nobody
// asked for a time, none is told.
func TestHowLongASecondLookWaits(t *testing.T) {
	for _, row := range []struct{ hasStill, waits, dryRun, told bool }{
		{true, true, false, true}, {true, false, false, false}, {true, false, true, true}, {false, true, true, false},
	} {
		asked := commandline.Options{Still: 2.5, HasStill: row.hasStill, DryRun: row.dryRun}
		if command := shell.Words((&place{self: "here", waits: row.waits}).end(asked)); strings.Contains(command, " --still 2.5 ") != row.told {
			t.Errorf("%+v: %s", row, command)
		}
	}
}
