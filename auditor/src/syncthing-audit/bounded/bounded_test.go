package bounded

import (
	"errors"
	"io"
	"os"
	"os/exec"
	"path/filepath"
	"runtime/debug"
	"strings"
	"syscall"
	"testing"
	"time"

	"syncthing-audit/fixture"
)

// wide are limits that no command here passes by itself.
var wide = Limits{Output: 1 << 20, Told: 1 << 20, Silence: 20 * time.Second, Whole: 40 * time.Second}

// What is within the limits is taken as it is, with the status of the end.
func TestWithinTheLimits(t *testing.T) {
	defer debug.SetGCPercent(debug.SetGCPercent(-1)) // the collector closes pipes of which nobody knows any more
	before := fixture.CountOpened(t, fixture.Any)
	defer func() {
		if opened := fixture.CountOpened(t, fixture.Any); opened > before {
			t.Errorf("%d files are open, and %d were", opened, before)
		}
	}()
	var output strings.Builder
	command := exec.Command("sh", "-c", "cat; echo told >&2; sleep 0.2; printf more; exit 3")
	command.Stdin = strings.NewReader("read ")
	told, err := Run(command, &output, wide)
	var ended *exec.ExitError
	if !errors.As(err, &ended) || ended.ExitCode() != 3 || output.String() != "read more" || told != "told\n" {
		t.Errorf("%q, %q, %v", output.String(), told, err)
	}
	if _, err := Run(exec.Command("/nowhere/at-all"), io.Discard, wide); !errors.Is(err, os.ErrNotExist) {
		t.Error(err)
	}
	if _, err := Run(exec.Command("sh", "-c", "head -c 1048576 /dev/zero"), io.Discard, wide); err != nil {
		t.Errorf("as much as the limit: %v", err)
	}
}

// Each limit ends a command that passes it, one that heeds no signal, and one whose child holds the output open.
func TestEachLimit(t *testing.T) {
	short := func(change func(limits *Limits)) Limits {
		limits := wide
		change(&limits)
		return limits
	}
	quick := short(func(limits *Limits) { limits.Silence = 300 * time.Millisecond })
	trickling := short(func(limits *Limits) { limits.Silence, limits.Whole = 4*time.Second, 1500*time.Millisecond })
	for _, test := range []struct {
		why, script, told string
		limits            Limits
	}{
		{"output without an end", "exec cat /dev/zero", "wrote more output", wide},
		{"standard error without an end", "exec cat /dev/zero >&2", "wrote more standard error", wide},
		{"one that hangs", "exec sleep 600", "wrote nothing for 300ms", quick},
		{"one that hangs after some output", "sleep 0.1; echo part; exec sleep 600", "wrote nothing for 300ms", quick},
		{"one that heeds no signal", "trap '' TERM; while :; do sleep 0.1; done", "wrote nothing for 300ms", quick},
		{"one whose child holds the output", "sleep 30 & exit 0", "wrote nothing for 300ms", quick},
		{"one that closed its output", "exec sleep 600 >&- 2>&-", "wrote nothing for 300ms", quick},
		{"one that trickles", "while :; do printf x; sleep 0.1; done", "wasn't done after 1.5s", trickling},
	} {
		command := exec.Command("sh", "-c", test.script)
		began := time.Now()
		told, err := Run(command, io.Discard, test.limits)
		var passed *Passed
		if !errors.As(err, &passed) || !strings.HasPrefix(err.Error(), test.told) || told != "" {
			t.Errorf("%s: %q, %v", test.why, told, err)
		}
		if spent := time.Since(began); spent > 20*time.Second {
			t.Errorf("%s took %v", test.why, spent)
		}
		if number := command.Process.Pid; syscall.Kill(number, 0) != syscall.ESRCH {
			t.Errorf("%s: process %d is still there", test.why, number)
		}
	}
}

// A command that heeds the signal may end itself, as ssh does.
func TestACommandIsToldToEnd(t *testing.T) {
	path, limits := filepath.Join(t.TempDir(), "told"), wide
	limits.Output = 1
	if _, err := Run(exec.Command("sh", "-c", "trap 'echo > "+path+"; exit' TERM; echo begun; while :; do sleep 0.1; done"), io.Discard, limits); err == nil {
		t.Error("it isn't ended")
	}
	if _, err := os.Stat(path); err != nil {
		t.Error(err)
	}
}

// A byte now and then keeps a command alive for longer than its silence may be.
func TestBytesKeepACommandAlive(t *testing.T) {
	limits := wide
	limits.Silence = 2 * time.Second
	var output strings.Builder
	told, err := Run(exec.Command("sh", "-c", "for n in 1 2 3 4 5 6; do sleep 0.5; printf x; sleep 0.3; printf y >&2; done"), &output, limits)
	if err != nil || output.String() != "xxxxxx" || told != "yyyyyy" {
		t.Errorf("%q, %q, %v", output.String(), told, err)
	}
}

// full is a writer that has no room.
type full struct{}

func (full) Write([]byte) (int, error) { return 0, syscall.ENOSPC }

// Where the output can't be kept, the command is ended and that is the error.
func TestNoRoomForTheOutput(t *testing.T) {
	if _, err := Run(exec.Command("sh", "-c", "echo x; exec sleep 600"), full{}, wide); !errors.Is(err, syscall.ENOSPC) {
		t.Error(err)
	}
}

// Lines that tell how far a command is are given on as they come. They aren't kept, and may have more bytes than what is kept; all else is kept in its order.
func TestSteps(t *testing.T) {
	const script = `printf 'one\n\nst'; sleep 0.2; printf 'ep 1\ntwo'; sleep 0.2; printf ' step 7\n'; n=0; while [ $n -lt 9000 ]; do n=$((n+1)); echo "step $n"; done; head -c 300 /dev/zero | tr '\0' x;
		printf 'step 2\n'; printf three; printf output >&3`
	limits, steps := wide, 0
	limits.Told = 1000
	limits.Step = func(line string) bool {
		is := strings.HasPrefix(line, "step ")
		if is {
			steps++
		}
		return is
	}
	var output strings.Builder
	told, err := Run(exec.Command("sh", "-c", "exec 3>&1; { "+script+"; } >&2"), &output, limits)
	expected := "one\n\ntwo step 7\n" + strings.Repeat("x", 300)
	if err != nil || output.String() != "output" || !strings.HasPrefix(told, expected) || !strings.HasSuffix(told, "three") || steps < 9001 {
		t.Errorf("%q, %q, %d steps, %v", output.String(), told, steps, err)
	}
	for _, script := range []string{"head -c 1001 /dev/zero", "yes", "yes | tr -d '\\n'"} {
		if _, err := Run(exec.Command("sh", "-c", "{ "+script+"; } >&2"), io.Discard, limits); err == nil || !strings.Contains(err.Error(), "wrote more standard error") {
			t.Errorf("%s: %v", script, err)
		}
	}
	limits.Told = 1000
	if _, err := Run(exec.Command("sh", "-c", "head -c 1000 /dev/zero >&2"), io.Discard, limits); err != nil {
		t.Errorf("as much as the limit: %v", err)
	}
}
