package disk

import (
	"fmt"
	"os"
	"path/filepath"
	"syscall"
	"testing"
	"time"
)

// A stamp has which file it is, when that was changed in any way and when its bytes were, and how many those are; of a directory which one it is.
func TestWhatAStampHas(t *testing.T) {
	room := t.TempDir()
	for _, moment := range []time.Time{time.Unix(0, 0), time.Unix(5, 7), time.Unix(1700000000, 999999999)} {
		path := filepath.Join(room, "file")
		if err := os.WriteFile(path, make([]byte, moment.Nanosecond()%100), 0o600); err != nil {
			t.Fatal(err)
		}
		if err := os.Chtimes(path, moment, moment); err != nil {
			t.Fatal(err)
		}
		for _, path := range []string{path, room} {
			about, err := os.Lstat(path)
			if err != nil {
				t.Fatal(err)
			}
			said := about.Sys().(*syscall.Stat_t)
			due := fmt.Sprintf("%d %d", said.Dev, said.Ino)
			if !about.IsDir() {
				due += fmt.Sprintf(" %d.%09d %d.%09d %d", said.Ctim.Sec, said.Ctim.Nsec, said.Mtim.Sec, said.Mtim.Nsec, said.Size)
			}
			if stamp := StampAt(path).String(); stamp != due {
				t.Errorf("%s, not %s", stamp, due)
			}
		}
	}
}
