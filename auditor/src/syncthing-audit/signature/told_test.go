package signature

import (
	"errors"
	"io"
	"os"
	"os/exec"
	"strings"
	"testing"
	"time"
)

// Why ssh-keygen didn't do what it was to do is told in its words, on one line, where it has any.
func TestWhySSHKeygenFails(t *testing.T) {
	ended := exec.Command("false").Run()
	for _, row := range []struct {
		told string
		err  error
		why  string
	}{
		{"ignored", nil, ""},
		{"", &exec.Error{Name: program, Err: exec.ErrNotFound}, "ssh-keygen isn't there. Debian's package openssh-client has it"},
		{"", os.ErrPermission, "ssh-keygen can't be run: permission denied"},
		{"one\r\ntwo\n\nthree\n", ended, "ssh-keygen ended with exit status 1: one; two; three"},
	} {
		if err := why(row.told, row.err); (err == nil) != (row.why == "") || err != nil && err.Error() != row.why {
			t.Errorf("%v, not %s", err, row.why)
		}
	}
	if err := why("", os.ErrPermission); !errors.Is(err, os.ErrPermission) {
		t.Error(err)
	}
}

// A line of allowed signers has a public key without its note, whatever stands there.
func TestLinesOfSigners(t *testing.T) {
	for public, key := range map[string]string{"ssh-ed25519 AAAA note\n": "ssh-ed25519 AAAA", "ssh-ed25519 AAAA": "ssh-ed25519 AAAA", "odd": "odd", "": ""} {
		if line := lineOf("DEVICE", public); line != `DEVICE namespaces="syncthing-audit" `+key {
			t.Errorf("%q: %q", public, line)
		}
	}
}

// A part of as many bytes as any has is copied, to the byte.
func TestAPartIsCopied(t *testing.T) {
	file, err := os.Open(written(t, "one.part", "a part", 0o600))
	if err != nil {
		t.Fatal(err)
	}
	defer file.Close()
	copied, err := Copied(file, 6)
	if err != nil {
		t.Fatal(err)
	}
	defer copied.Close()
	if text, err := io.ReadAll(io.NewSectionReader(copied, 0, 100)); err != nil || string(text) != "a part" {
		t.Errorf("%q, %v", text, err)
	}
	file.Close()
	if _, err := Copied(file, 6); err == nil {
		t.Error("a file that is closed is copied")
	}
	t.Setenv("TMPDIR", "/nowhere")
	if file, err = os.Open(written(t, "one.part", "a part", 0o600)); err == nil {
		_, err = Copied(file, 6)
	}
	if err == nil || !strings.Contains(err.Error(), "/nowhere") {
		t.Errorf("a copy is made where there is no place: %v", err)
	}
}

// Whose file a list or a key is counts beside its mode: this user's own, or root's.
func TestWhoseFilesCount(t *testing.T) {
	list, err := OpenSigners(written(t, "allowed_signers", "", 0o644))
	if err != nil {
		t.Fatal(err)
	}
	list.Close()
	if os.Geteuid() != 0 {
		t.Skip("only root makes files of others")
	}
	path := written(t, "allowed_signers", "", 0o644)
	if err := os.Chown(path, 1234, 0); err != nil {
		t.Fatal(err)
	}
	if _, err := OpenSigners(path); err == nil || !strings.Contains(err.Error(), "others may write it (mode 0644)") {
		t.Errorf("another user's list: %v", err)
	}
	key, _ := aKey(t, idOf(1))
	for owner := 0; owner < 3; owner++ {
		if err := os.Chown(key, owner, 0); err != nil {
			t.Fatal(err)
		}
		about, err := os.Stat(key)
		for user := 0; user < 3; user++ {
			if err != nil || isOthers(about, user) != (owner != 0 && owner != user) {
				t.Errorf("a file of user %d is another's for user %d: %v, %v", owner, user, isOthers(about, user), err)
			}
		}
	}
	if err := os.Chown(key, 1234, 0); err != nil {
		t.Fatal(err)
	}
	if _, _, err := Open(key, idOf(1)); err == nil || !strings.Contains(err.Error(), "others may read it (mode 0600)") {
		t.Errorf("another user's key: %v", err)
	}
}

// A large file has more time, by its length, and is read from its begin.
func TestALargeFileHasMoreTime(t *testing.T) {
	had := leastTime
	leastTime = 100 * time.Millisecond
	defer func() { leastTime = had }()
	useProgram(t, "sleep 0.4; head -c 5")
	file, err := os.OpenFile(written(t, "large", "begin", 0o600), os.O_RDWR, 0)
	if err != nil {
		t.Fatal(err)
	}
	defer file.Close()
	if _, err := file.Seek(2, io.SeekStart); err != nil {
		t.Fatal(err)
	}
	for size, is := range map[int64]bool{5: false, 10 * bytesPerSecond: true} {
		if err := file.Truncate(size); err != nil {
			t.Fatal(err)
		}
		told, err := run(file, nil)
		if (err == nil) != is || is && string(told) != "begin" {
			t.Errorf("%d bytes: %q, %v", size, told, err)
		}
	}
	file.Close()
	if _, err := run(file, nil); err == nil {
		t.Error("a file that is closed is signed")
	}
}
