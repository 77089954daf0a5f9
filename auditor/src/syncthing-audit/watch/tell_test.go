package watch

import (
	"io"
	"mime/quotedprintable"
	"os"
	"path/filepath"
	"strings"
	"testing"
	"time"
)

// mailed tells a text by mail, and gives what sendmail was given.
func mailed(t *testing.T, text string) (head, rest string) {
	room := t.TempDir()
	if err := os.WriteFile(filepath.Join(room, "sendmail"), []byte("#!/bin/sh\ncat > "+filepath.Join(room, "mail")), 0o700); err != nil {
		t.Fatal(err)
	}
	t.Setenv("PATH", room+":"+os.Getenv("PATH"))
	if errs := (&Config{Mail: []Mail{{To: "me"}}}).Tell("subject", text, io.Discard); len(errs) > 0 {
		t.Fatal(errs)
	}
	mail, err := os.ReadFile(filepath.Join(room, "mail"))
	if err != nil {
		t.Fatal(err)
	}
	for _, line := range strings.Split(string(mail), "\n") {
		if len(line) > 998 {
			t.Errorf("a line of %d bytes", len(line))
		}
	}
	head, rest, _ = strings.Cut(string(mail), "\n\n")
	return head, rest
}

// A mail has no line that a mail server refuses, however long a name is, and its text is what was told. Its head says how other letters than ASCII's are sent.
func TestLinesOfAMail(t *testing.T) {
	for text, isPlain := range map[string]bool{"": true, "a\n": true, strings.Repeat("x", longestLine) + "\n": true, "é = 1\n": false} {
		head, rest := mailed(t, text)
		if rest != text || strings.Contains(head, "Encoding") == isPlain || strings.Contains(head, "\nContent-Transfer-Encoding: 8bit") == isPlain {
			t.Errorf("%q: %s, %q", text, head, rest)
		}
	}
	for _, text := range []string{strings.Repeat("x", longestLine+1), "a\n  " + strings.Repeat("é = ", 9000) + " \n\nb\n.\n=3D\n"} {
		head, rest := mailed(t, text)
		read, err := io.ReadAll(quotedprintable.NewReader(strings.NewReader(rest)))
		if err != nil || string(read) != text || !strings.Contains(head, "\nContent-Transfer-Encoding: quoted-printable") {
			t.Errorf("%s, %v: %q", head, err, read)
		}
	}
}

// A command that hangs is ended with its children, and what comes behind it is told all the same.
func TestACommandThatHangs(t *testing.T) {
	of := longestTelling
	t.Cleanup(func() { longestTelling = of })
	told := filepath.Join(t.TempDir(), "told")
	for longestTelling = 500 * time.Millisecond; !hasHung(t, told); longestTelling *= 4 { // on a busy machine the command may be ended before it tells its child
		if longestTelling > 10*time.Second {
			t.Fatal("it doesn't begin")
		}
	}
	child, err := os.ReadFile(told)
	if err != nil {
		t.Fatal(err)
	}
	for try := 0; try < 1200; try++ {
		if state, err := os.ReadFile("/proc/" + strings.TrimSpace(string(child)) + "/stat"); err != nil || strings.Contains(string(state), ") Z ") {
			return
		}
		time.Sleep(50 * time.Millisecond)
	}
	t.Error("it runs still")
}

// hasHung has a command be told that tells its child's number in a file, and hangs. It says whether that was told.
func hasHung(t *testing.T, told string) bool {
	config := &Config{Notify: []Command{{Command: "sleep 99 & echo $! > " + told + "; cat > /dev/null; sleep 99"}}, Ping: []Command{{Command: "setsid sleep 3"}}}
	began := time.Now()
	errs := append(config.Tell("subject", strings.Repeat("text\n", 99999), io.Discard), config.PingAll(io.Discard)...)
	if len(errs) != 2 || !strings.Contains(errs[0].Error(), "<notify>: it wasn't done in "+longestTelling.String()+", and was ended") || time.Since(began) > 40*time.Second {
		t.Errorf("%v in %v", errs, time.Since(began))
	}
	number, err := os.ReadFile(told)
	return err == nil && len(number) > 0
}
