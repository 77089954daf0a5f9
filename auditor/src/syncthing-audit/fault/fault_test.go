package fault

import (
	"errors"
	"fmt"
	"io"
	"io/fs"
	"os"
	"path/filepath"
	"strings"
	"syscall"
	"testing"
)

// failing is a writer that takes some bytes and fails.
type failing struct {
	takes int
	err   error
}

func (f failing) Write([]byte) (int, error) { return f.takes, f.err }

// Each writer says how much was written, and gives no error where there is none.
func TestWriters(t *testing.T) {
	file, err := os.Create(filepath.Join(t.TempDir(), "file"))
	if err != nil {
		t.Fatal(err)
	}
	defer file.Close()
	for _, to := range []io.Writer{Writer{failing{3, nil}}, Temporary{failing{3, nil}}, InPlaceOf{"asked", file}} {
		if count, err := to.Write([]byte("abc")); count != 3 || err != nil {
			t.Errorf("%T: %d, %v", to, count, err)
		}
	}
	full := syscall.ENOSPC
	for _, to := range []io.Writer{Writer{failing{2, full}}, Temporary{failing{2, full}}} {
		count, err := to.Write([]byte("abc"))
		if count != 2 || !errors.Is(err, full) {
			t.Errorf("%T: %d, %v", to, count, err)
		}
		var unwritten *Unwritten
		_, isTemporary := to.(Temporary)
		if errors.As(err, &unwritten) == isTemporary || strings.Contains(err.Error(), "TMPDIR") != isTemporary {
			t.Errorf("%T: %v", to, err)
		}
	}
}

// A fault is of an error, says what that says, and leads to it; without one there is none.
func TestFaults(t *testing.T) {
	if Of(nil) != nil {
		t.Error("a fault of nothing")
	}
	if err := Of(syscall.EDQUOT); err.Error() != syscall.EDQUOT.Error() || !errors.Is(err, syscall.EDQUOT) {
		t.Error(err)
	}
}

// An error of a file that is written in place of another one names that other one; an error of no file is as it was.
func TestErrorsNameTheFileThatWasAskedFor(t *testing.T) {
	file, err := os.Create(filepath.Join(t.TempDir(), "own"))
	if err != nil {
		t.Fatal(err)
	}
	if err := file.Close(); err != nil {
		t.Fatal(err)
	}
	_, err = InPlaceOf{"asked", file}.Write([]byte("a"))
	if err == nil || err.Error() != "write asked: file already closed" || !IsOfFile(err, "asked") || IsOfFile(err, file.Name()) || !errors.Is(err, fs.ErrClosed) {
		t.Error(err)
	}
	if wrapped := fmt.Errorf("why: %w", err); !IsOfFile(wrapped, "asked") || IsOfFile(wrapped, "ask") {
		t.Error(wrapped)
	}
	if err := NamedAs("asked", syscall.EIO); err != syscall.EIO || IsOfFile(err, "asked") || IsOfFile(err, "") {
		t.Error(err)
	}
	if NamedAs("asked", nil) != nil || IsOfFile(nil, "") {
		t.Error("an error of nothing")
	}
}
