package disk

import (
	"errors"
	"fmt"
	"io"
	"math/rand"
	"os"
	"path/filepath"
	"reflect"
	"strings"
	"testing"
	"time"

	"syncthing-audit/part"
)

// drainable gives a name with or without a file, of which all, some or no bytes were hashed.
func drainable(random *rand.Rand, name string) *part.Name {
	made := &part.Name{Name: part.Bytes(name)}
	if random.Intn(4) == 0 {
		made.Out = []part.LeftOut{{Kind: part.Unreadable, Why: "open /srv/docs/" + name + ": permission denied"}}
	}
	if random.Intn(4) == 0 {
		return made
	}
	made.Disk = &part.Node{Size: int64(random.Intn(100) + 20)}
	switch random.Intn(4) {
	case 0:
		made.Disk.Contents = []part.Content{{Size: made.Disk.Size}}
	case 1:
		made.Disk.Contents, made.Disk.Lost = []part.Content{{Size: made.Disk.Size}}, "read /srv/docs/"+name+": input/output error"
	case 2:
		made.Disk.Contents, made.Disk.Unread = []part.Content{{Size: made.Disk.Size}}, int64(random.Intn(20))
	}
	return made
}

// What waits is given on in its order and without the folder's path, and all names and all bytes that were hashed are counted, as far as names are taken.
func TestWhatWaitsIsGivenOn(t *testing.T) {
	for seed := int64(1); seed <= 200; seed++ {
		random, queue := rand.New(rand.NewSource(seed)), NewQueue()
		due, failing := &part.End{}, random.Intn(12)
		var names []string
		for place := 0; place < 6; place++ {
			name := drainable(random, fmt.Sprint(place))
			queue.Put(&Pending{Line: name, Weight: place})
			if place > failing {
				continue
			}
			due.Names++
			names = append(names, string(name.Name))
			if disk := name.Disk; disk != nil && disk.Contents != nil && disk.Lost == "" {
				due.Bytes += disk.Size - disk.Unread
			}
		}
		if waiting, weight := queue.Waiting(); waiting != 6 || weight != 0 { // as no room was reserved
			t.Fatalf("%d names of %d wait", waiting, weight)
		}
		queue.End(io.ErrUnexpectedEOF)
		end, full, told := &part.End{}, errors.New("no room"), []string{}
		isOver, err := queue.Drain("/srv/docs", end, func(line part.Line) error {
			told = append(told, string(line.Name.Name))
			if line.Name.Disk != nil && strings.Contains(line.Name.Disk.Lost, "/srv") || len(line.Name.Out) > 0 && strings.Contains(line.Name.Out[0].Why, "/srv") {
				t.Errorf("the path is told: %+v", line.Name)
			}
			if len(told) > failing {
				return full
			}
			return nil
		})
		isTaken := failing >= 6
		if !reflect.DeepEqual(end, due) || !reflect.DeepEqual(told, names) || isOver != isTaken || isTaken && err != io.ErrUnexpectedEOF || !isTaken && err != full {
			t.Errorf("seed %d: %+v, not %+v; %v; %v, %v", seed, end, due, told, isOver, err)
		}
		if waiting, _ := queue.Waiting(); waiting != 6-len(names) {
			t.Errorf("seed %d: %d names wait behind %d", seed, waiting, len(names))
		}
	}
}

// A stamp is the same until a file is written to, also where its time and length stay, or another one comes in its place; a directory's until another one comes.
func TestStamps(t *testing.T) {
	directory := t.TempDir()
	path, other, moment := filepath.Join(directory, "file"), filepath.Join(directory, "other"), time.Unix(1600000000, 5)
	write := func(path, text string) {
		t.Helper()
		if os.WriteFile(path, []byte(text), 0o600) != nil || os.Chtimes(path, moment, moment) != nil {
			t.Fatal(path)
		}
	}
	if stamp := StampAt(path); stamp != (Stamp{}) {
		t.Errorf("nothing has the stamp %q", stamp)
	}
	seen := map[Stamp]string{}
	isNew := func(why string, stamp Stamp) {
		t.Helper()
		if had, is := seen[stamp]; is || stamp.String() == "" {
			t.Errorf("%s: the stamp %q is also that of %s", why, stamp, had)
		}
		seen[stamp] = why
	}
	write(path, "a")
	isNew("the first file", StampAt(path))
	if StampAt(path) != StampAt(path) {
		t.Error("a file has two stamps")
	}
	for turn, first := 0, StampAt(path); StampAt(path) == first && turn < 1000; turn++ { // until the kernel's clock goes on
		write(path, "b")
		time.Sleep(time.Millisecond)
	}
	isNew("the file with other bytes", StampAt(path))
	write(other, "b")
	if err := os.Rename(other, path); err != nil {
		t.Fatal(err)
	}
	isNew("another file", StampAt(path))
	if err := os.Mkdir(other, 0o700); err != nil {
		t.Fatal(err)
	}
	before := StampAt(other)
	isNew("a directory", before)
	write(filepath.Join(other, "x"), "x")
	if StampAt(other) != before {
		t.Error("what comes into a directory changes its stamp")
	}
	if err := os.Symlink("x", filepath.Join(other, "link")); err != nil {
		t.Fatal(err)
	}
	isNew("a symlink", StampAt(filepath.Join(other, "link")))
	isNew("another directory", StampAt(directory))
}
