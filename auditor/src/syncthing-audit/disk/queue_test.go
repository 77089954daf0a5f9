package disk

import (
	"io"
	"os"
	"path/filepath"
	"reflect"
	"strings"
	"testing"
	"time"

	"github.com/syncthing/syncthing/lib/fs"
	"github.com/syncthing/syncthing/lib/protocol"
	"syncthing-audit/adapt"
	"syncthing-audit/part"
)

// reserving begins to take room of a queue.
func reserving(q *Queue, weight int) chan bool {
	given := make(chan bool, 1)
	go func() { given <- q.Reserve(weight) }()
	return given
}

// reserve takes room of a queue that has it.
func reserve(t *testing.T, q *Queue, weight int) {
	t.Helper()
	select {
	case <-reserving(q, weight):
	case <-time.After(10 * time.Second): // on a busy machine it may not begin at once
		t.Fatalf("no room for %d", weight)
	}
}

// awaitRoom begins to take room of a queue that hasn't it.
func awaitRoom(t *testing.T, q *Queue, weight int) chan bool {
	t.Helper()
	given := reserving(q, weight)
	select {
	case <-given:
		t.Fatalf("room for %d, which is more than there is", weight)
	case <-time.After(50 * time.Millisecond):
	}
	return given
}

// A queue has room for so much and no more, but one name that is heavier goes into an empty one. Who waits goes on once a name is taken.
func TestTheRoomOfAQueue(t *testing.T) {
	q := NewQueue()
	for _, weight := range []int{5, MostWaiting - 7, 2} {
		reserve(t, q, weight)
		q.Put(&Pending{Weight: weight})
	}
	later := awaitRoom(t, q, 5)
	if next, err := q.Next(); err != nil || next.Weight != 5 || !<-later || q.weight != MostWaiting {
		t.Errorf("%+v, %v, %d", next, err, q.weight)
	}
	light := NewQueue()
	light.Reserve(1)
	awaitRoom(t, light, MostWaiting)
	light.Put(&Pending{Weight: 1})
	light.Next() // so whoever waits goes on
	heavy := NewQueue()
	reserve(t, heavy, 2*MostWaiting)
	later = awaitRoom(t, heavy, 1)
	stopped := make(chan bool)
	go func() { heavy.Stop(); close(stopped) }()
	if <-later {
		t.Error("a name is wanted of a queue that was stopped")
	}
	heavy.End(nil)
	<-stopped
	if next, err := heavy.Next(); next != nil || err != nil {
		t.Errorf("%+v, %v", next, err)
	}
	failed := NewQueue()
	failed.Put(&Pending{})
	failed.End(io.ErrUnexpectedEOF)
	first, none := failed.Next()
	if second, err := failed.Next(); first == nil || none != nil || second != nil || err != io.ErrUnexpectedEOF {
		t.Errorf("%+v, %v, %+v, %v", first, none, second, err)
	}
}

// What keeps a file from being hashed is told by its kind.
func TestFilesThatAreNotHashed(t *testing.T) {
	pool := NewPool(1)
	defer pool.Close()
	path := filepath.Join(t.TempDir(), "a")
	if err := os.WriteFile(path, []byte("hello"), 0o600); err != nil {
		t.Fatal(err)
	}
	for kind, name := range map[string]string{part.Changing: "b", part.Unreadable: strings.Repeat("x", 300), "": "mem"} {
		line := &part.Name{Name: part.Bytes(name), Disk: &part.Node{Size: 5}}
		file := File{Disk: adapt.Directory(fs.NewFilesystem(fs.FilesystemTypeBasic, filepath.Dir(path))), Name: name, Node: line.Disk, BlockSizes: []int64{protocol.MinBlockSize}}
		if kind == "" { // the first bytes of a process can't be read
			file.Disk, file.Stamp = adapt.Directory(fs.NewFilesystem(fs.FilesystemTypeBasic, "/proc/self")), StampAt("/proc/self/mem")
		}
		told := (&Pending{Line: line, Job: pool.Begin(file)}).Finish()
		if kind == "" {
			if told.Disk.Lost == "" || len(told.Out) > 0 || len(told.Disk.Contents) != 1 {
				t.Errorf("%+v, %+v", told, told.Disk)
			}
		} else if len(told.Out) != 1 || told.Out[0].Kind != kind || told.Out[0].Bytes != 5 || told.Disk.Contents != nil {
			t.Errorf("%s: %+v", kind, told.Out)
		}
	}
}

// A name gets what its file was hashed to, and one without a file stays as it is.
func TestWhatIsHashedComesToItsName(t *testing.T) {
	pool := NewPool(1)
	defer pool.Close()
	path := filepath.Join(t.TempDir(), "a")
	if err := os.WriteFile(path, []byte("hello"), 0o600); err != nil {
		t.Fatal(err)
	}
	file := fileAt(t, path)
	file.Keep, file.Recorded = true, [][32]byte{{1}}
	contents, differ, data, err := pool.Begin(file).Wait()
	if err != nil || len(contents) != 1 || differ == nil || string(data) != "hello" {
		t.Fatal(contents, differ, data, err)
	}
	line := &part.Name{Name: "a", Disk: &part.Node{Size: 5}}
	told := (&Pending{Line: line, Job: pool.Begin(file)}).Finish()
	if !reflect.DeepEqual(told.Disk, &part.Node{Size: 5, Contents: contents, Differ: differ, Data: data}) || told.Out != nil {
		t.Errorf("%+v", told.Disk)
	}
	if none := (&part.Name{Name: "b"}); (&Pending{Line: none}).Finish() != none {
		t.Error("another name is told")
	}
}

// Who asks for a name before one is there waits for it, and for the end; how many wait is told meanwhile.
func TestNamesThatComeLater(t *testing.T) {
	q, came := NewQueue(), make(chan *Pending)
	go func() {
		for {
			one, _ := q.Next()
			came <- one
			if one == nil {
				return
			}
		}
	}()
	for _, one := range []*Pending{{Weight: 1}, {Weight: 2}, nil} {
		time.Sleep(10 * time.Millisecond) // so that it is waited for
		if names, weight := q.Waiting(); names != 0 || weight != 0 {
			t.Errorf("%d names of %d wait", names, weight)
		}
		if one == nil {
			q.End(nil)
		} else if q.Reserve(one.Weight) {
			q.Put(one)
		}
		select {
		case is := <-came:
			if is != one {
				t.Errorf("%+v, not %+v", is, one)
			}
		case <-time.After(20 * time.Second):
			t.Fatal("nothing comes")
		}
	}
	full := NewQueue()
	full.Reserve(7)
	full.Put(&Pending{Weight: 7})
	if names, weight := full.Waiting(); names != 1 || weight != 7 {
		t.Errorf("%d names of %d wait", names, weight)
	}
}
