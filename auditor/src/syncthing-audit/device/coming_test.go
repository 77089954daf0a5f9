package device

import (
	"fmt"
	"os"
	"path/filepath"
	"testing"
)

// A running Syncthing makes files of its index and takes them away: whoever looks at them meanwhile isn't told that one is gone.
func TestFilesThatComeAndGo(t *testing.T) {
	room := t.TempDir()
	ended, done := make(chan bool), make(chan bool)
	go func() {
		defer close(done)
		for number := 0; ; number++ {
			select {
			case <-ended:
				return
			default:
			}
			path := filepath.Join(room, fmt.Sprintf("%06d.log", number%50))
			os.WriteFile(path, []byte("x"), 0o600)
			os.Remove(path)
		}
	}()
	for look := 0; look < 2000; look++ {
		if _, err := writtenAt(room); err != nil {
			t.Error(err)
		}
		if bytes, err := bytesFor(room); err != nil || bytes > 2*50 {
			t.Errorf("%d, %v", bytes, err)
		}
		if files, err := listingOf(room); files == nil && err == nil {
			t.Error("no files are listed, and no fault is told")
		}
	}
	close(ended)
	<-done
}

// An index that can't be read any more has no folder.
func TestAFolderOfAnIndexThatIsClosed(t *testing.T) {
	dir, _ := aHome(t)
	home, err := Open(dir, "")
	if err != nil {
		t.Fatal(err)
	}
	defer home.Close()
	home.backend.Close()
	if index, err := home.Index(home.Config.Folders[0]); err == nil {
		t.Errorf("%+v", index)
	}
}
