package observe

import (
	"errors"
	"os"
	"testing"
)

// run has a run take records, and gives from where its device went back.
func run(t *testing.T, directory string, records ...[]byte) int64 {
	t.Helper()
	kept, err := OpenKept(directory)
	if err != nil {
		t.Fatal(err)
	}
	kept.Next().ID = 42
	if err := kept.Next().Put(records...); err != nil {
		t.Fatal(err)
	}
	from, err := kept.WentBackFrom()
	if err == nil {
		err = kept.Finish()
	}
	if err != nil {
		t.Fatal(err)
	}
	return from
}

// A device that gives sequences anew went back, also where its index goes as far as before or further.
func TestWentBack(t *testing.T) {
	a1, b2, b3, c2, c4 := fileOf("a", 1, true), fileOf("b", 2, true), fileOf("b", 3, true), fileOf("c", 2, true), fileOf("c", 4, true)
	for _, row := range []struct {
		what    string
		records [][]byte
		from    int64
	}{
		{"the same", [][]byte{a1, b2}, 0}, {"more", [][]byte{a1, b2, c4}, 0}, {"a change", [][]byte{a1, b3}, 0}, {"fewer", [][]byte{a1}, 2},
		{"as far, and another", [][]byte{a1, c2}, 2}, {"further, and another", [][]byte{a1, c2, b3}, 2},
	} {
		directory := t.TempDir()
		if from := run(t, directory, a1, b2); from != 0 {
			t.Errorf("a first run: from %d", from)
		}
		if from := run(t, directory, row.records...); from != row.from {
			t.Errorf("%s: from %d, and not %d", row.what, from, row.from)
		}
	}
}

// Whenever a run is ended, the index of the last run stays, and one run at a time looks at a device.
func TestKeptStays(t *testing.T) {
	directory := t.TempDir()
	run(t, directory, fileOf("a", 1, true), fileOf("b", 2, true))
	kept, err := OpenKept(directory)
	if err != nil {
		t.Fatal(err)
	}
	if _, err := OpenKept(directory); !errors.Is(err, ErrBusy) {
		t.Errorf("two runs at once: %v", err)
	}
	if err := kept.Next().Put(fileOf("a", 1, true), fileOf("b", 2, true)); err != nil {
		t.Fatal(err)
	}
	if err := kept.Finish(); err != nil {
		t.Errorf("a run beside which another one tried: %v", err)
	}
	for _, end := range []func(){
		func() {},
		func() { // between the two renamings
			if err := os.Rename(directory+"/last", directory+"/older"); err != nil {
				t.Fatal(err)
			}
		},
		func() { // behind them
			if err := os.Mkdir(directory+"/older", 0o700); err != nil {
				t.Fatal(err)
			}
		},
	} {
		end()
		kept, err := OpenKept(directory)
		if err != nil {
			t.Fatal(err)
		}
		if kept.last.Highest != 2 || kept.Next().Highest != 0 {
			t.Errorf("up to %d, and the next one up to %d", kept.last.Highest, kept.Next().Highest)
		}
		kept.Close()
	}
}
