package observe

import (
	"math/rand"
	"os"
	"path/filepath"
	"testing"
	"time"
)

// filesIn gives the files below a directory.
func filesIn(t *testing.T, directory string) []string {
	words := []string{}
	err := filepath.Walk(directory, func(path string, about os.FileInfo, err error) error {
		if err == nil && about.Mode().IsRegular() {
			words = append(words, path)
		}
		return err
	})
	if err != nil {
		t.Fatal(err)
	}
	return words
}

// A kept index that a disk damaged keeps no run from a device, and crashes or hangs none. What couldn't be read is told, and the next run keeps one again.
func TestADamagedIndexThatIsKept(t *testing.T) {
	draw, damaged := rand.New(rand.NewSource(1)), 0
	for round := 0; round < 30; round++ {
		directory := t.TempDir()
		run(t, directory, fileOf("a", 1, true), fileOf("b", 2, true), fileOf("c", 3, true))
		files := filesIn(t, filepath.Join(directory, "last"))
		path := files[draw.Intn(len(files))]
		text, err := os.ReadFile(path)
		if err != nil {
			t.Fatal(err)
		}
		switch draw.Intn(3) {
		case 0:
			text = text[:draw.Intn(len(text)+1)]
		case 1:
			if len(text) > 0 {
				text[draw.Intn(len(text))] ^= 1 << uint(draw.Intn(8))
			}
		default:
			text = nil
		}
		if err := os.WriteFile(path, text, 0o600); err != nil {
			t.Fatal(err)
		}
		ended := make(chan error, 1)
		go func() {
			kept, err := OpenKept(directory)
			if err == nil {
				if kept.Damage() != nil {
					damaged++
				}
				_, err = kept.WentBackFrom()
				kept.Close()
			}
			ended <- err
		}()
		select {
		case err := <-ended:
			if err != nil {
				t.Errorf("%s, %d bytes: %v", filepath.Base(path), len(text), err)
			}
		case <-time.After(20 * time.Second):
			t.Fatal("it hangs")
		}
		if from := run(t, directory, fileOf("a", 1, true), fileOf("b", 2, true), fileOf("c", 3, true)); from != 0 {
			t.Errorf("%s, %d bytes: the device is said to have gone back from %d", filepath.Base(path), len(text), from)
		}
		if kept, err := OpenKept(directory); err != nil || kept.Damage() != nil || kept.last.Highest != 3 {
			t.Errorf("%s, %d bytes: the next run has none: %v", filepath.Base(path), len(text), err)
		} else {
			kept.Close()
		}
	}
	if damaged < 5 {
		t.Errorf("only %d were damaged so that it was seen", damaged)
	}
}
