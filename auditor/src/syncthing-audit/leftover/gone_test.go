package leftover

import (
	"os"
	"path/filepath"
	"testing"
	"time"
)

// What another thread makes anew while it is taken away is taken away, too. A round counts if the machine isn't so busy that the thread makes it later
// than anybody waits for it.
func TestWhatComesBackIsTakenAway(t *testing.T) {
	counted := 0
	for round := 0; round < 20; round++ {
		path, isOver := filepath.Join(t.TempDir(), "index"), make(chan time.Duration)
		if err := os.Mkdir(path, 0o700); err != nil {
			t.Fatal(err)
		}
		began := time.Now()
		go func() {
			for until := time.Now().Add(quietTime / 2); time.Now().Before(until); {
				os.MkdirAll(path, 0o700)
				os.WriteFile(filepath.Join(path, "LOCK"), nil, 0o600)
			}
			isOver <- time.Since(began)
		}()
		removeUntilGone(map[string]struct{}{path: {}})
		if <-isOver > quietTime*3/4 {
			continue
		}
		counted++
		if _, err := os.Lstat(path); !os.IsNotExist(err) {
			t.Fatalf("it is there in round %d: %v", round, err)
		}
	}
	if counted == 0 {
		t.Skip("the machine is too busy")
	}
}
