package history

import (
	"errors"
	"os"
	"path/filepath"
	"runtime"
	"strings"
	"syscall"
	"testing"

	"github.com/syndtr/goleveldb/leveldb/journal"
	"syncthing-audit/choice"
	"syncthing-audit/part"
)

// A name that can't be kept is told also of a part that ends early, so that nobody comes to the name again.
func TestANameThatCannotBeKeptOfAPartThatEndsEarly(t *testing.T) {
	for _, odd := range []string{"0", "a"} { // one that is passed over, and the name itself
		history := opened(t)
		if err := history.db.Put(keyOfReading("docs", part.Number(ids[0]), odd), []byte("odd"), nil); err != nil {
			t.Fatal(err)
		}
		stream := aFile("a").partOf(0, choice.Names{})
		stream.lines = stream.lines[:len(stream.lines)-1]
		if err := history.Take(stream, night(1)); !errors.Is(err, errValue) {
			t.Errorf("behind %q: %v", odd, err)
		}
	}
}

// An odd value is told of each question that comes to it alone: a reading of a file that changed, and a fault that is listed.
func TestOddValuesThatOneQuestionReads(t *testing.T) {
	history, numbers := opened(t), []uint64{part.Number(ids[0]), part.Number(ids[1])}
	for day, bytes := range []byte{'a', 'b'} {
		history.mustTake(t, day, device{"x": {bytes: bytes}}, device{"x": {bytes: bytes}})
	}
	for _, key := range [][]byte{keyOfReading("docs", numbers[0], "x"), keyOfFault(named("x")[0])} {
		if err := history.db.Put(key, []byte("odd"), nil); err != nil {
			t.Fatal(err)
		}
	}
	if err := history.EachSpread(func(string) []uint64 { return numbers }, func(Spread) error { return nil }); !errors.Is(err, errValue) {
		t.Errorf("a reading: %v", err)
	}
	if list, err := history.list(named("x"), nil); !errors.Is(err, errValue) || list.Count != 0 || list.First != nil {
		t.Errorf("a fault: %+v, %v", list, err)
	}
}

// A fault that comes to be odd while an audit is kept is told, and not listed as another one.
func TestAFaultThatBecomesOdd(t *testing.T) {
	history, odd := opened(t), named("x")[0]
	if _, err := history.Keep(night(1), []Fault{odd}, func(Fault) bool { return true }); err != nil {
		t.Fatal(err)
	}
	since, err := history.Since(Audited{At: night(2), Folders: map[string][]uint64{"docs": {odd.Device}}, Names: func(string, string) bool {
		if err := history.db.Put(keyOfFault(odd), []byte("odd"), nil); err != nil {
			t.Fatal(err)
		}
		return false
	}})
	if !errors.Is(err, errValue) || since != nil {
		t.Errorf("%+v, %v", since, err)
	}
}

// Who takes files that changed and can't go on is given no other one.
func TestTheFirstFileThatCannotBeTaken(t *testing.T) {
	history, taken := opened(t), 0
	for day, bytes := range []byte{'a', 'b'} {
		history.mustTake(t, day, device{"x": {bytes: bytes}, "y": {bytes: bytes}, "z": {bytes: bytes}})
	}
	err := history.EachSpread(func(string) []uint64 { return []uint64{part.Number(ids[0])} }, func(Spread) error {
		taken++
		return errUnread
	})
	if !errors.Is(err, errUnread) || taken != 1 {
		t.Errorf("%d files, %v", taken, err)
	}
}

// What a reader of a log drops last counts: only what LevelDB calls so is a cut.
func TestWhatIsDroppedLast(t *testing.T) {
	lost := &dropped{}
	for _, row := range []struct {
		err   error
		isCut bool
	}{
		{errUnread, false}, {&journal.ErrCorrupted{Reason: "missing chunk part"}, true}, {errUnread, false}, {&journal.ErrCorrupted{Reason: "chunk length overflows block"}, true},
		{&journal.ErrCorrupted{Reason: "checksum mismatch"}, false},
	} {
		if lost.Drop(row.err); lost.isCut != row.isCut || lost.reason != row.err.Error() {
			t.Errorf("%v: %+v", row.err, lost)
		}
	}
}

// What is no directory is no place for a history, and neither is one that isn't there.
func TestPlacesThatAreNoDirectory(t *testing.T) {
	file := filepath.Join(t.TempDir(), "LOG")
	if err := os.WriteFile(file, nil, 0o600); err != nil {
		t.Fatal(err)
	}
	for _, place := range []string{file, file + ".none"} {
		if err := checkDirectory(place); err == nil {
			t.Errorf("%s is taken for a directory", place)
		}
	}
}

var errNoOther = errors.New("there is no other user")

// A file of a history that can't be made its user's own is told, and others may read no history then.
func TestAFileThatOthersMayRead(t *testing.T) {
	if os.Geteuid() != 0 {
		t.Skip("only root can lose its rights to a file")
	}
	was, err := os.Getwd()
	room := t.TempDir()
	if err == nil {
		err = os.WriteFile(filepath.Join(room, "LOG"), nil, 0o600)
	}
	if err == nil {
		err = os.Chmod(room, 0o777)
	}
	if err == nil {
		err = os.Chdir(room) // so that no directory above it counts
	}
	if err != nil {
		t.Fatal(err)
	}
	defer os.Chdir(was)
	const another = 65534
	ended := make(chan error)
	go func() {
		runtime.LockOSThread() // which ends with this, and with it that it is another user's
		syscall.RawSyscall(syscall.SYS_SETFSUID, another, 0, 0)
		if is, _, _ := syscall.RawSyscall(syscall.SYS_SETFSUID, another, 0, 0); is != another {
			ended <- errNoOther
			return
		}
		ended <- checkDirectory(".")
	}()
	err = <-ended
	if err == errNoOther {
		t.Skip(err)
	}
	if !errors.Is(err, os.ErrPermission) || !strings.HasPrefix(err.Error(), "chmod ") {
		t.Error(err)
	}
}

// What waits is written as soon as it has as many bytes as may wait, and not before.
func TestHowMuchWaitsToBeWritten(t *testing.T) {
	history, was := opened(t), mostWaiting
	t.Cleanup(func() { mostWaiting = was })
	waiting := writes{to: history.db}
	if err := waiting.put([]byte("a"), []byte("value")); err != nil || waiting.batch.Len() != 1 {
		t.Fatalf("%d wait, %v", waiting.batch.Len(), err)
	}
	length := len(waiting.batch.Dump())
	for more, left := range map[int]int{0: 0, 1: 1} {
		mostWaiting = length + more
		waiting := writes{to: history.db}
		if err := waiting.put([]byte("a"), []byte("value")); err != nil || waiting.batch.Len() != left {
			t.Errorf("of %d bytes, where %d may wait, %d keys wait: %v", length, mostWaiting, waiting.batch.Len(), err)
		}
	}
}
