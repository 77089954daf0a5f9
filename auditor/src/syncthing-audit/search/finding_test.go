package search

import (
	"bytes"
	"crypto/sha256"
	"io"
	"os"
	"path/filepath"
	"strings"
	"testing"
	"time"

	"syncthing-audit/commandline"
	"syncthing-audit/disk"
	"syncthing-audit/exit"
	"syncthing-audit/history"
	"syncthing-audit/part"
)

// lines is a part in memory.
type lines struct {
	head *part.Head
	left []part.Line
}

func (l *lines) Head() *part.Head { return l.head }

func (l *lines) Next() (part.Line, error) {
	if len(l.left) == 0 {
		return part.Line{}, io.EOF
	}
	line := l.left[0]
	l.left = l.left[1:]
	return line, nil
}

// historyOf gives the directory of a history in which the name 'f' of the folder 'docs' was read with these bytes.
func historyOf(t *testing.T, text string) string {
	directory := filepath.Join(t.TempDir(), "history")
	kept, err := history.Open(directory)
	if err != nil {
		t.Fatal(err)
	}
	content := part.Content{Size: int64(len(text)), BlockSize: 128 << 10, Hash: disk.HashOf([][32]byte{sha256.Sum256([]byte(text))})}
	read := &part.Name{Name: part.Bytes("f"), Disk: &part.Node{Size: content.Size, Contents: []part.Content{content}}}
	stream := &lines{&part.Head{Device: "7777777-777777N-7777777-777777N-7777777-777777N-7777777-77777Q4", Folders: []part.Folder{{ID: "docs"}}},
		[]part.Line{{Begin: &part.Begin{Folder: "docs"}}, {Name: read}, {End: &part.End{Folder: "docs", Last: true}}}}
	if err := kept.Take(stream, time.Now()); err != nil {
		t.Fatal(err)
	}
	if err := kept.Close(); err != nil {
		t.Fatal(err)
	}
	return directory
}

// A file is found by the bytes that a history has of a name. A history that isn't there, or has no bytes of the name, refuses the search; it can be opened again.
func TestTheBytesOfAHistoryAreFound(t *testing.T) {
	room, directory := t.TempDir(), historyOf(t, "good")
	mustWrite(t, filepath.Join(room, "old/f.bak"), "good")
	mustWrite(t, filepath.Join(room, "f"), "evil")
	for range []int{1, 2} {
		for _, row := range []struct {
			name, folder, history string
			found                 string
			refusal               string
		}{
			{"f", "docs", directory, filepath.Join(room, "old/f.bak") + "\n", ""},
			{"./f", "docs", directory, filepath.Join(room, "old/f.bak") + "\n", ""},
			{"g", "docs", directory, "", "refused: the history has no bytes of g in docs"},
			{"f", "photos", directory, "", "refused: the history has no bytes of f in photos"},
			{"f", "docs", filepath.Join(room, "none"), "", "refused: there is no history"},
			{"f", "docs", noHistory(t), "", "is no file of a history"},
		} {
			var output, log bytes.Buffer
			status, err := Run(commandline.Options{History: row.history, Folders: []string{row.folder}, Parts: []string{row.name, room}, Jobs: 1}, &output, &log)
			if output.String() != row.found || (err != nil) != (row.refusal != "") {
				t.Errorf("%+v: %q, %v", row, output.String(), err)
			}
			if err == nil && (status != exit.Done || !strings.Contains(log.String(), "1 file of the bytes that were read of f in docs: 2 files of that size read, 0 not looked at")) {
				t.Errorf("%+v: status %d, %q", row, status, log.String())
			}
			if err != nil && (status != 0 || !strings.Contains(err.Error(), row.refusal)) {
				t.Errorf("%+v: status %d, %v", row, status, err)
			}
		}
	}
	if _, err := os.Stat(filepath.Join(room, "none")); !os.IsNotExist(err) {
		t.Errorf("a history was made: %v", err)
	}
}

// noHistory gives a directory that looks like a history's, and has something else.
func noHistory(t *testing.T) string {
	room := t.TempDir()
	mustWrite(t, filepath.Join(room, "CURRENT"), "")
	mustWrite(t, filepath.Join(room, "letters"), "")
	return room
}
