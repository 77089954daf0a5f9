package command

import (
	"os"
	"path/filepath"
	"strings"
	"syscall"
	"testing"

	"golang.org/x/exp/slices"
	"syncthing-audit/exit"
	"syncthing-audit/exported"
	"syncthing-audit/fixture"
	"syncthing-audit/process"
	"syncthing-audit/unsynced"
)

// changedHome makes a home in which something was changed.
func changedHome(change func(t *testing.T, home string)) func(t *testing.T) string {
	return func(t *testing.T) string {
		home := homeOf(t, "x", nil)
		change(t, home)
		return home
	}
}

// unopenedHomes are homes that can't be opened, with what is told of them.
var unopenedHomes = map[string]func(t *testing.T) string{
	"no such file":    func(t *testing.T) string { return filepath.Join(t.TempDir(), "nowhere") },
	"not a directory": func(t *testing.T) string { return with(t, filepath.Join(t.TempDir(), "file"), "") },
	"no certificate":  changedHome(func(t *testing.T, home string) { with(t, filepath.Join(home, "cert.pem"), "x") }),
	"of a newer Syncthing": func(t *testing.T) string {
		return reconfigured(t, `<configuration version="\d+"`, `<configuration version="9999"`)
	},
	"is too old": func(t *testing.T) string {
		return reconfigured(t, `<configuration version="\d+"`, `<configuration version="1"`)
	},
	"one of Syncthing 2":     changedHome(func(t *testing.T, home string) { with(t, filepath.Join(home, "index-v2/main.db"), "") }),
	"is that of Syncthing 2": changedHome(moveToTwo),
	"no index":               changedHome(func(t *testing.T, home string) { removeAll(t, filepath.Join(home, "index-v0.14.0.db")) }),
	"Syncthing runs on":      changedHome(lockIndex),
	"nowhere: no such file": changedHome(func(t *testing.T, home string) {
		with(t, filepath.Join(home, "../files/.stignore"), "#include nowhere\n")
	}),
	"isn't whole": changedHome(func(t *testing.T, home string) {
		with(t, filepath.Join(home, "index-v0.14.0.db/CURRENT"), "MANIFEST-9\n")
	}),
	"XML syntax error": changedHome(func(t *testing.T, home string) { with(t, filepath.Join(home, "config.xml"), "<x <") }),
}

func removeAll(t *testing.T, path string) {
	if err := os.RemoveAll(path); err != nil {
		t.Fatal(err)
	}
}

func moveToTwo(t *testing.T, home string) {
	removeAll(t, filepath.Join(home, "index-v0.14.0.db"))
	with(t, filepath.Join(home, "index-v2/main.db"), "")
}

// lockIndex has a home's index locked, as by a Syncthing that runs.
func lockIndex(t *testing.T, home string) {
	lock, err := os.OpenFile(filepath.Join(home, "index-v0.14.0.db/LOCK"), os.O_RDWR, 0)
	if err == nil {
		t.Cleanup(func() { lock.Close() })
		err = syscall.Flock(int(lock.Fd()), syscall.LOCK_EX|syscall.LOCK_NB)
	}
	if err != nil {
		t.Fatal(err)
	}
}

// wholeHome makes a home whose disk is as its index says.
func wholeHome(t *testing.T) string {
	home := homeOf(t, "x", nil)
	if err := os.Mkdir(filepath.Join(home, "../files/own"), 0o755); err != nil {
		t.Fatal(err)
	}
	return home
}

// toldOfHomes gives the status of a command with homes, and all that it tells.
func toldOfHomes(words []string, homes ...string) (int, string, string) {
	for _, home := range homes {
		words = append(words, "--home", home)
	}
	var output, log strings.Builder
	status := Run(words, &output, &log)
	return status, output.String(), log.String()
}

// A home that can't be opened is left out, and told with why; what the others have at fault is told all the same. A strict audit is refused, and so is
// one in which no home is left.
func TestAHomeThatCantBeOpenedIsLeftOut(t *testing.T) {
	fixture.UseAuditor(t)
	whole, faulty := wholeHome(t), homeOf(t, "x", nil)
	for why, make := range unopenedHomes {
		home := make(t)
		for form, words := range map[string][]string{"\nleft out: ": {"check"}, "left out: ": {"check", "--lines"}, `"left_out":[`: {"check", "--json"}} {
			for _, homes := range [][]string{{whole, home}, {home, whole}} {
				status, told, log := toldOfHomes(words, homes...)
				if status != exit.Partial || !strings.Contains(told, form) || !strings.Contains(told, why) || !strings.Contains(log, "It is left out") {
					t.Errorf("%s, %v: status %d, %s%s", why, words, status, told, log)
				}
			}
		}
		if status, told, _ := toldOfHomes([]string{"check"}, faulty, home); status != exit.NotSettled || !strings.Contains(told, why) {
			t.Errorf("%s, with a fault in the other home: status %d, %s", why, status, told)
		}
		for _, refused := range [][]string{{"check", "--strict"}, {"export", "--strict", "--into", filepath.Join(t.TempDir(), "into")}} {
			if status, told, log := toldOfHomes(refused, whole, home); status != exit.Refused || told != "" || !strings.Contains(log, why) {
				t.Errorf("%s, %v: status %d, %s%s", why, refused, status, told, log)
			}
		}
		if status, told, log := toldOfHomes([]string{"check"}, home); status != exit.Refused || told != "" || !strings.Contains(log, why) {
			t.Errorf("%s alone: status %d, %s%s", why, status, told, log)
		}
	}
}

// An export of the others says what is left out, for 'sum'.
func TestAnExportSaysWhichHomeIsLeftOut(t *testing.T) {
	into := filepath.Join(t.TempDir(), "into")
	home := unopenedHomes["no index"](t)
	if status, _, log := toldOfHomes([]string{"export", "--into", into}, wholeHome(t), home); status != exit.Done || !strings.Contains(log, "no index") {
		t.Fatal(status, log)
	}
	rest, err := os.ReadFile(filepath.Join(into, exported.RestName))
	if err != nil || !strings.Contains(string(rest), "no index") {
		t.Errorf("%v: %s", err, rest)
	}
}

// The folders of a home that is left out are known, so that nothing is written there; a folder that it alone has isn't asked for as if nobody had it.
func TestAHomeThatIsLeftOutIsKnown(t *testing.T) {
	fixture.UseAuditor(t)
	home := reconfigured(t, `id="docs"`, `id="pics"`)
	removeAll(t, filepath.Join(home, "index-v0.14.0.db"))
	files := filepath.Join(home, "../files")
	removeAll(t, filepath.Join(files, unsynced.Marker))
	status, _, log := toldOfHomes([]string{"export", "--into", filepath.Join(files, "into")}, wholeHome(t), home)
	if status != exit.Refused || !strings.Contains(log, "would be in folder") {
		t.Errorf("status %d, %s", status, log)
	}
	status, _, log = toldOfHomes([]string{"check", "--folder", "pics"}, wholeHome(t), home)
	if status != exit.Refused || !strings.Contains(log, "no index") {
		t.Errorf("status %d, %s", status, log)
	}
}

// A home that isn't there doesn't keep root from becoming the user whose the others are.
func TestAHomeThatIsNotThereSparesNoOwner(t *testing.T) {
	if os.Geteuid() != 0 {
		t.Skip("only root becomes another user")
	}
	one, other := t.TempDir(), t.TempDir()
	for place, home := range []string{one, other} {
		if err := os.Chown(home, 1000+place, 1000); err != nil {
			t.Fatal(err)
		}
	}
	all := []string{one, filepath.Join(one, "nowhere"), other}
	for range all {
		all = append(all[1:], all[0])
		if err := process.BecomeOwner(slices.Clone(all)); err == nil || !strings.Contains(err.Error(), "are of two users") {
			t.Fatalf("%v: %v", all, err)
		}
	}
}
