package signature

import (
	"fmt"
	"os"
	"os/exec"
	"path/filepath"
	"runtime/debug"
	"strings"
	"syscall"
	"testing"
	"time"

	"github.com/syncthing/syncthing/lib/protocol"
	"syncthing-audit/fixture"
)

// idOf gives the id of a device.
func idOf(number byte) string { return protocol.DeviceID{number}.String() }

// aKey makes the key of a device, and gives its path and its line.
func aKey(t *testing.T, device string) (string, string) {
	if _, err := exec.LookPath(program); err != nil {
		t.Skip(err)
	}
	path := filepath.Join(t.TempDir(), "new", "key")
	_, line, err := Open(path, device)
	if err != nil {
		t.Fatal(err)
	}
	return path, line
}

// written writes a file, and gives its path.
func written(t *testing.T, name, text string, mode os.FileMode) string {
	path := filepath.Join(t.TempDir(), name)
	if err := os.WriteFile(path, []byte(text), mode); err != nil {
		t.Fatal(err)
	}
	return path
}

// signedBy writes a file and its signature by ssh-keygen as a person calls it, and gives its path.
func signedBy(t *testing.T, key, namespace, text string) string {
	path := written(t, "one.part", text, 0o600)
	if told, err := exec.Command(program, "-q", "-Y", "sign", "-n", namespace, "-f", key, path).CombinedOutput(); err != nil {
		t.Fatal(err, string(told))
	}
	return path
}

// checked says why a file isn't known to be by a device.
func checked(t *testing.T, signers, device, path string) error {
	list, err := OpenSigners(written(t, "allowed_signers", signers, 0o600))
	if err != nil {
		t.Fatal(err)
	}
	defer list.Close()
	file, err := os.Open(path)
	if err != nil {
		t.Fatal(err)
	}
	defer file.Close()
	copied, err := Copied(file, 1<<20)
	if err != nil {
		t.Fatal(err)
	}
	defer copied.Close()
	return list.Check(copied, device, path+Suffix)
}

// A key is made at its first use, for its user alone, and is used from then on.
func TestAKeyIsMadeAtItsFirstUse(t *testing.T) {
	key, line := aKey(t, idOf(1))
	for path, mode := range map[string]os.FileMode{key: 0o600, filepath.Dir(key): 0o700} {
		if about, err := os.Stat(path); err != nil || about.Mode().Perm() != mode {
			t.Errorf("%s: %v, %v", path, about.Mode(), err)
		}
	}
	had, _ := os.ReadFile(key)
	_, again, err := Open(key, idOf(1))
	if now, _ := os.ReadFile(key); err != nil || again != "" || string(now) != string(had) {
		t.Errorf("at its second use: %v, %q", err, again)
	}
	if !strings.HasPrefix(line, idOf(1)+` namespaces="syncthing-audit" ssh-ed25519 AAAA`) || strings.Contains(line, "\n") {
		t.Error(line)
	}
	if err := checked(t, line+"\n", idOf(1), signedBy(t, key, Namespace, "a part")); err != nil {
		t.Error(err)
	}
}

// Of two runs that make a key at once, both have the one that stands there.
func TestAKeyTakesNoOthersPlace(t *testing.T) {
	key, _ := aKey(t, idOf(1))
	other, _ := aKey(t, idOf(1))
	had, _ := os.ReadFile(key)
	if err := putKey(other, key); !os.IsExist(err) {
		t.Error(err)
	}
	if now, _ := os.ReadFile(key); string(now) != string(had) {
		t.Error("the key is another one")
	}
}

// Nothing but a signature of these bytes, for this end, by a key of this device, says that a part is its.
func TestWhoSpeaksForADevice(t *testing.T) {
	key, line := aKey(t, idOf(1))
	other, otherLine := aKey(t, idOf(2))
	bare := line[strings.Index(line, "ssh-"):]
	both := line + "\n" + otherLine + "\n"
	for called, row := range map[string]struct{ signers, device, key, namespace string }{
		"another device's key":       {both, idOf(1), other, Namespace},
		"another device":             {both, idOf(2), key, Namespace},
		"another end":                {idOf(1) + " " + bare, idOf(1), key, "git"},
		"a key for another end":      {idOf(1) + ` namespaces="git" ` + bare, idOf(1), key, Namespace},
		"a key of before":            {idOf(1) + ` valid-before="20200101" ` + bare, idOf(1), key, Namespace},
		"a key that isn't there":     {otherLine, idOf(1), key, Namespace},
		"no key":                     {"", idOf(1), key, Namespace},
		"a line that is a note":      {"# " + line, idOf(1), key, Namespace},
		"a part of the id":           {idOf(1)[:20] + " " + bare, idOf(1), key, Namespace},
		"no device id":               {both, "-h", key, Namespace},
		"an id with odd letters":     {both, idOf(1) + "\x1b[2J", key, Namespace},
		"an id in other letters":     {strings.ToLower(idOf(1)) + " " + bare, strings.ToLower(idOf(1)), key, Namespace},
		"an id without its dashes":   {both, strings.ReplaceAll(idOf(1), "-", ""), key, Namespace},
		"a key of authority, no key": {idOf(1) + " cert-authority " + bare, idOf(1), key, Namespace},
	} {
		if err := checked(t, row.signers, row.device, signedBy(t, row.key, row.namespace, "a part")); err == nil || !strings.HasPrefix(err.Error(), "refused: it ") {
			t.Errorf("%s: %v", called, err)
		}
	}
	if err := checked(t, both, idOf(1), signedBy(t, key, Namespace, "a part")); err != nil {
		t.Error(err)
	}
	err := checked(t, both, idOf(2), signedBy(t, key, Namespace, "a part"))
	if due := "refused: it isn't known to be by device " + idOf(2) + ", whose part it says it is: ssh-keygen ended with"; err == nil || !strings.HasPrefix(err.Error(), due) {
		t.Errorf("%v, not %s", err, due)
	}
}

// Other bytes than those that were signed are refused, and so is what is no signature.
func TestForgedParts(t *testing.T) {
	key, line := aKey(t, idOf(1))
	for called, change := range map[string]func(path string) error{
		"a byte more":        func(path string) error { return os.WriteFile(path, []byte("a part!"), 0o600) },
		"nothing":            func(path string) error { return os.Truncate(path, 0) },
		"no signature":       func(path string) error { return os.Remove(path + Suffix) },
		"an empty signature": func(path string) error { return os.Truncate(path+Suffix, 0) },
		"a long signature":   func(path string) error { return os.Truncate(path+Suffix, 1<<30) },
		"another's signature": func(path string) error {
			return os.Rename(signedBy(t, key, Namespace, "of before")+Suffix, path+Suffix)
		},
		"a pipe": func(path string) error {
			os.Remove(path + Suffix)
			return syscall.Mkfifo(path+Suffix, 0o600)
		},
		"a device": func(path string) error {
			os.Remove(path + Suffix)
			return os.Symlink("/dev/zero", path+Suffix)
		},
	} {
		path := signedBy(t, key, Namespace, "a part")
		if err := change(path); err != nil {
			t.Fatal(err)
		}
		if err := checked(t, line, idOf(1), path); err == nil || !strings.HasPrefix(err.Error(), "refused: it") {
			t.Errorf("%s: %v", called, err)
		}
	}
}

// A list that others may write says nothing, and a key that others may read signs nothing.
func TestModes(t *testing.T) {
	key, line := aKey(t, idOf(1))
	for _, mode := range []os.FileMode{0o600, 0o644, 0o755} {
		path := written(t, "allowed_signers", line, 0o600)
		os.Chmod(path, mode)
		if list, err := OpenSigners(path); err != nil {
			t.Errorf("%o: %v", mode, err)
		} else {
			list.Close()
		}
	}
	for _, mode := range []os.FileMode{0o620, 0o602, 0o666} {
		path := written(t, "allowed_signers", line, 0o600)
		os.Chmod(path, mode)
		if _, err := OpenSigners(path); err == nil || !strings.Contains(err.Error(), "others may write it") {
			t.Errorf("%o: %v", mode, err)
		}
	}
	for _, mode := range []os.FileMode{0o640, 0o604, 0o660} {
		os.Chmod(key, mode)
		if _, _, err := Open(key, idOf(1)); err == nil || !strings.Contains(err.Error(), "others may read it") {
			t.Errorf("%o: %v", mode, err)
		}
	}
}

// What isn't a key that signs without a word is refused before any file is hashed. Nobody is asked for a passphrase.
func TestKeysThatDoNotSign(t *testing.T) {
	good, _ := aKey(t, idOf(1))
	phrased := filepath.Join(t.TempDir(), "phrased")
	exec.Command(program, "-q", "-t", "ed25519", "-N", "a secret", "-f", phrased).Run()
	pipe := filepath.Join(t.TempDir(), "pipe")
	syscall.Mkfifo(pipe, 0o600)
	link := filepath.Join(t.TempDir(), "link")
	os.Symlink(good+".none", link)
	for called, path := range map[string]string{"of a passphrase": phrased, "no key": written(t, "key", "no key\n", 0o600), "a pipe": pipe,
		"a directory": t.TempDir(), "a link to nothing": link} {
		began := time.Now()
		if _, _, err := Open(path, idOf(1)); err == nil || !strings.HasPrefix(err.Error(), "refused: the key ") || time.Since(began) > 20*time.Second {
			t.Errorf("%s: %v", called, err)
		}
	}
}

// useProgram has another program be called in ssh-keygen's place.
func useProgram(t *testing.T, script string) {
	path := written(t, program, "#!/bin/sh\n"+script, 0o700)
	t.Setenv("PATH", filepath.Dir(path)+":/usr/bin:/bin")
}

// A part isn't taken where ssh-keygen isn't there, hangs or writes without an end.
func TestWithoutSSHKeygen(t *testing.T) {
	key, line := aKey(t, idOf(1))
	path := signedBy(t, key, Namespace, "a part")
	had := leastTime
	leastTime = 2 * time.Second
	defer func() { leastTime = had }()
	for script, told := range map[string]string{"exec sleep 1000": "wrote nothing for 2s", "exec cat /dev/zero": "wrote more output than",
		"printf 'odd\\ntext' >&2; exit 3": "exit status 3: odd; text"} {
		useProgram(t, script)
		if err := checked(t, line, idOf(1), path); err == nil || !strings.Contains(err.Error(), told) {
			t.Errorf("%s: %v", script, err)
		}
	}
	t.Setenv("PATH", t.TempDir())
	if err := checked(t, line, idOf(1), path); err == nil || !strings.Contains(err.Error(), "ssh-keygen isn't there") {
		t.Error(err)
	}
	if _, _, err := Open(filepath.Join(t.TempDir(), "key"), idOf(1)); err == nil || !strings.Contains(err.Error(), "ssh-keygen isn't there") {
		t.Error(err)
	}
}

// A program that says nothing but success makes no signature.
func TestAnEmptySignature(t *testing.T) {
	key, _ := aKey(t, idOf(1))
	useProgram(t, "exit 0")
	if _, _, err := Open(key, idOf(1)); err == nil || !strings.Contains(err.Error(), "no signature") {
		t.Error(err)
	}
}

// A part of more bytes than any has isn't copied, and a pipe isn't read.
func TestWhatIsNotCopied(t *testing.T) {
	file, err := os.Open(written(t, "one.part", "a part", 0o600))
	if err != nil {
		t.Fatal(err)
	}
	defer file.Close()
	before := fixture.CountOpened(t, fixture.Any)
	defer debug.SetGCPercent(debug.SetGCPercent(-1)) // the collector closes files of which nobody knows any more
	if _, err := Copied(file, 5); err == nil || fixture.CountOpened(t, fixture.Any) != before || !strings.Contains(err.Error(), "more bytes than any part") {
		t.Error(err)
	}
	from, to, err := os.Pipe()
	if err != nil {
		t.Fatal(err)
	}
	fmt.Fprint(to, "a part")
	to.Close()
	defer from.Close()
	if _, err := Copied(from, 100); err == nil || !strings.Contains(err.Error(), "it is no file") {
		t.Error(err)
	}
}
