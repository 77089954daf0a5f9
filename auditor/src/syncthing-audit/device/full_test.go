package device

import (
	"errors"
	"fmt"
	"os"
	"strings"
	"syscall"
	"testing"

	"github.com/syncthing/syncthing/lib/db/backend"
)

// A copy that can't be opened for want of room is told as one that has none, and of no other one it is said that another Syncthing runs.
func TestACopyThatCannotBeOpened(t *testing.T) {
	const guess = "is another instance of Syncthing running?"
	for _, one := range []struct {
		err    error
		isFull bool
	}{
		{fmt.Errorf("write a: %v (%s)", syscall.ENOSPC, guess), true}, {&os.PathError{Op: "write", Path: "a", Err: syscall.EDQUOT}, true},
		{errors.New("leveldb: not found (" + guess + ")"), false},
	} {
		told := notOpened(one.err).Error()
		if isFull(one.err) != one.isFull || strings.Contains(told, guess) || strings.Contains(told, "TMPDIR may name another directory") != one.isFull ||
			!strings.HasPrefix(told, "refused: ") {
			t.Errorf("%v: %s", one.err, told)
		}
	}
	path := t.TempDir() + "/index"
	if err := os.WriteFile(path, nil, 0o600); err != nil {
		t.Fatal(err)
	}
	if _, err := backend.Open(path, backend.TuningAuto); err == nil || !strings.Contains(err.Error(), guess) || strings.Contains(notOpened(err).Error(), guess) {
		t.Errorf("what the package guesses: %v", err)
	}
}
