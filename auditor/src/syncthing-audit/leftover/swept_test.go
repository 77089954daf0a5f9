package leftover

import (
	"path/filepath"
	"testing"
)

// Whatever is made while other runs take away what has no lock is there, and stays: it isn't theirs. What they took is known no more.
func TestWhatIsMadeWhileOthersSweep(t *testing.T) {
	room := t.TempDir()
	t.Setenv("TMPDIR", room)
	withNames(t)
	isOver, isDone := make(chan struct{}), make(chan struct{})
	go func() {
		defer close(isDone)
		for {
			select {
			case <-isOver:
				return
			default:
				sweep(room, prefixOfDirectory)
				sweep(room, prefixOfFile)
			}
		}
	}()
	for turn := 0; turn < 400; turn++ {
		path, err := Directory()
		if err != nil || !isThere(path) || len(paths) != 1 {
			t.Errorf("turn %d: %q, %v, %v", turn, path, err, paths)
		}
		Remove(path)
		file, err := NewWhole(room)
		must(t, err)
		if !isAt(file.File, file.Name()) || len(paths) != 1 {
			t.Errorf("turn %d: %q, %v", turn, file.Name(), paths)
		}
		file.Drop()
		if t.Failed() {
			break
		}
	}
	close(isOver)
	<-isDone
	if left, _ := filepath.Glob(room + "/*"); len(left)+len(paths)+len(locks) != 0 {
		t.Errorf("%v, %v, %v", left, paths, locks)
	}
}
