package signature

import (
	"os"
	"path/filepath"
	"runtime/debug"
	"strings"
	"testing"

	"syncthing-audit/fixture"
)

// filesIn lists all that stands below a directory.
func filesIn(t *testing.T, directory string) []string {
	var found []string
	err := filepath.Walk(directory, func(path string, _ os.FileInfo, err error) error {
		if path != directory {
			found = append(found, path)
		}
		return err
	})
	if err != nil {
		t.Fatal(err)
	}
	return found
}

// Where a key can't be made, that is told, and nothing of it is left: neither at its place nor where it was made.
func TestAKeyThatCannotBeMade(t *testing.T) {
	const making = `case "$*" in *" sign "*) echo signed; exit;; esac; for made; do :; done; `
	for called, row := range map[string]struct {
		script string
		told   string
	}{
		"nothing is made":              {making + "exit 0", "key.pub"},
		"it fails, and leaves both":    {making + `echo x > "$made"; echo "ssh-ed25519 AAAA" > "$made.pub"; exit 1`, "ended with"},
		"the public half alone":        {making + `echo "ssh-ed25519 AAAA" > "$made.pub"`, "key: no such file"},
		"its directory goes meanwhile": {making + `echo x > "$made"; echo "ssh-ed25519 AAAA" > "$made.pub"; rm -rf "$PLACE"`, "no such file"},
	} {
		place, room := filepath.Join(t.TempDir(), "keys"), t.TempDir()
		t.Setenv("PLACE", place)
		t.Setenv("TMPDIR", room)
		useProgram(t, row.script)
		key, line, err := Open(filepath.Join(place, "key"), idOf(1))
		if err == nil || !strings.HasPrefix(err.Error(), "refused: the key ") || !strings.Contains(err.Error(), row.told) || key != nil || line != "" {
			t.Errorf("%s: %q, %v", called, line, err)
		}
		os.MkdirAll(place, 0o700)
		if left := append(filesIn(t, room), filesIn(t, place)...); len(left) > 0 {
			t.Errorf("%s: %q are left", called, left)
		}
	}
	file, link := written(t, "file", "", 0o600), filepath.Join(t.TempDir(), "link")
	if err := os.Symlink("nothing", link); err != nil {
		t.Fatal(err)
	}
	calls := filepath.Join(t.TempDir(), "calls")
	useProgram(t, "echo > "+calls+"; exit 1")
	for _, place := range []string{file, link} {
		if _, _, err := Open(filepath.Join(place, "below", "key"), idOf(1)); err == nil || strings.Contains(err.Error(), "ssh-keygen") {
			t.Errorf("a key is made below a file or a link to nothing: %v", err)
		}
	}
	if _, err := os.Lstat(calls); !os.IsNotExist(err) {
		t.Error("a key is made before there is a place for it")
	}
}

// Nothing stays open behind a key, a list or a check of a signature, whether all is well or not.
func TestNothingStaysOpen(t *testing.T) {
	defer debug.SetGCPercent(debug.SetGCPercent(-1)) // the collector closes files of which nobody knows any more
	key, line := aKey(t, idOf(1))
	path := signedBy(t, key, Namespace, "a part")
	for called, call := range map[string]func() error{
		"a new key":      func() error { _, _, err := Open(filepath.Join(t.TempDir(), "key"), idOf(1)); return err },
		"a key":          func() error { _, _, err := Open(key, idOf(1)); return err },
		"a good part":    func() error { return checked(t, line, idOf(1), path) },
		"another's part": func() error { return checked(t, line, idOf(2), path) },
	} {
		before := fixture.CountOpened(t, fixture.Any)
		err := call()
		if after := fixture.CountOpened(t, fixture.Any); after > before || (err == nil) == (called == "another's part") {
			t.Errorf("%s: %d files are open, and %d before: %v", called, after, before, err)
		}
	}
}

// A key that another run made meanwhile is used, and its line isn't told again.
func TestAKeyThatAnotherRunMadeMeanwhile(t *testing.T) {
	place := filepath.Join(t.TempDir(), "key")
	t.Setenv("PLACE", place)
	useProgram(t, `case "$*" in *" sign "*) echo signed; exit;; esac; for made; do :; done; umask 077
echo own > "$made"; echo "ssh-ed25519 AAAA" > "$made.pub"; echo of another run > "$PLACE"`)
	key, line, err := Open(place, idOf(1))
	text, _ := os.ReadFile(place)
	if err != nil || key == nil || line != "" || string(text) != "of another run\n" {
		t.Errorf("%q, %v: %q stands there", line, err, text)
	}
}

// Without a place for files of a run nothing is signed, and no list is read. What can't be read from its begin isn't signed either.
func TestWithoutAPlaceForFiles(t *testing.T) {
	key, line := aKey(t, idOf(1))
	signers := written(t, "allowed_signers", line, 0o600)
	from, to, err := os.Pipe()
	if err != nil {
		t.Fatal(err)
	}
	defer from.Close()
	defer to.Close()
	if signed, err := run(from, nil, "-V"); err == nil {
		t.Errorf("a pipe is read from its begin: %q", signed)
	}
	t.Setenv("TMPDIR", "/nowhere")
	if _, _, err := Open(key, idOf(1)); err == nil {
		t.Error("a key is tried without a file to sign")
	}
	if _, _, err := Open(key+".new", idOf(1)); err == nil {
		t.Error("a key is made nowhere")
	}
	if _, err := OpenSigners(signers); err == nil {
		t.Error("a list is kept nowhere")
	}
	if _, err := os.Lstat(key + ".new"); !os.IsNotExist(err) {
		t.Errorf("a key that was refused stands there: %v", err)
	}
}

// The program that signs is in a session of its own, without a terminal, asks nobody for a passphrase, and tells in English.
func TestHowTheProgramIsCalled(t *testing.T) {
	useProgram(t, `read -r _ _ _ _ _ session _ < /proc/$$/stat; echo "$LC_ALL $SSH_ASKPASS_REQUIRE $((session == $$))"`)
	t.Setenv("LC_ALL", "de_DE.UTF-8")
	file, err := os.Open(written(t, "one.part", "a part", 0o600))
	if err != nil {
		t.Fatal(err)
	}
	defer file.Close()
	if told, err := run(file, nil); err != nil || string(told) != "C never 1\n" {
		t.Errorf("%q, %v", told, err)
	}
}
