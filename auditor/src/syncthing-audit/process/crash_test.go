package process

import (
	"os"
	"os/exec"
	"strings"
	"syscall"
	"testing"
)

// crashing is the variable that has this test's program crash.
const crashing = "SYNCTHING_AUDIT_TEST_CRASHES"

// TestMain crashes where that variable has it so, and is another program where doing says so.
func TestMain(tests *testing.M) {
	if os.Getenv(crashing) != "" {
		AbortWhereItCrashes()
		panic("a fault of the program")
	}
	if does := programs[os.Getenv(doing)]; does != nil {
		does(os.Args[1:])
		os.Exit(0)
	}
	os.Exit(tests.Run())
}

// A crash has no status of an answer or a refusal: the program is ended by the signal of an abort, and leaves no core. What it was doing is told.
func TestACrashHasAStatusOfItsOwn(t *testing.T) {
	child := exec.Command(os.Args[0])
	child.Env, child.Dir = append(os.Environ(), crashing+"=1"), t.TempDir()
	told, _ := child.CombinedOutput()
	ended := child.ProcessState.Sys().(syscall.WaitStatus)
	if !ended.Signaled() || ended.Signal() != syscall.SIGABRT || ended.CoreDump() || !strings.Contains(string(told), "a fault of the program") {
		t.Errorf("%v: %s", child.ProcessState, told)
	}
}
