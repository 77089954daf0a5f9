package part

import (
	"bytes"
	"errors"
	"os"
	"path/filepath"
	"reflect"
	"testing"
)

// shown gives what Show writes of a part.
func shown(t *testing.T, data []byte) string {
	var written bytes.Buffer
	read, err := NewReader(bytes.NewReader(data))
	if err == nil {
		err = Show(&written, read)
	}
	if err != nil {
		t.Fatal(err)
	}
	return written.String()
}

// Parts that 0.13 to 0.16 made, of a stopped device and of a first look, are read and shown as they were written. The folder has a file with other
// bytes, one that is away, one that no scan has seen, a symlink, a pipe, an ignored name, and one that isn't UTF-8.
func TestPartsOfOlderPrograms(t *testing.T) {
	paths, err := filepath.Glob("testdata/*.part")
	if err != nil || len(paths) != 8 {
		t.Fatalf("%q, %v", paths, err)
	}
	for _, path := range paths {
		data, err := os.ReadFile(path)
		if err != nil {
			t.Fatal(err)
		}
		if text := string(unzipped(t, data)); shown(t, data) != text {
			t.Errorf("%s: %s\nnot %s", path, shown(t, data), text)
		}
		first, lines, err := readAll(data)
		if err != nil {
			t.Fatal(err)
		}
		anew := &aWhole{first.Head(), lines}
		if second, found, err := readAll(anew.written(t)); err != nil || !reflect.DeepEqual(first.Head(), second.Head()) || !reflect.DeepEqual(found, lines) || len(lines) != 11 {
			t.Errorf("%s in the other encoding: %v, %+v", path, err, found)
		}
	}
}

// What is shown of a part is the same in both encodings, and what is wrong with it is told behind that.
func TestShow(t *testing.T) {
	whole := aPart()
	if lines, packed := shown(t, whole.inLines(t)), shown(t, whole.written(t)); lines != packed || lines != string(unzipped(t, whole.inLines(t))) {
		t.Errorf("%s\nnot %s", packed, lines)
	}
	cut, due := whole.written(t), shown(t, whole.written(t))
	var written bytes.Buffer
	read, err := NewReader(bytes.NewReader(cut[:len(cut)-3]))
	if err == nil {
		err = Show(&written, read)
	}
	if !errors.Is(err, errMiddle) || written.String() != due {
		t.Errorf("%s, %v", written.String(), err)
	}
}
