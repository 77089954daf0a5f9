package history

import (
	"errors"
	"fmt"
	"strings"
	"testing"
	"time"

	"github.com/syndtr/goleveldb/leveldb/storage"
	"syncthing-audit/choice"
	"syncthing-audit/part"
)

var errFull = errors.New("no space left")

// unwritable is a storage of which one write into a log fails, behind so many. None fails before anybody begins to count.
type unwritable struct {
	storage.Storage
	left, failed *int
}

type unwritableFile struct {
	storage.Writer
	of unwritable
}

func (u unwritable) Create(file storage.FileDesc) (storage.Writer, error) {
	created, err := u.Storage.Create(file)
	if err != nil || file.Type != storage.TypeJournal {
		return created, err
	}
	return unwritableFile{created, u}, nil
}

func (u unwritableFile) Write(text []byte) (int, error) {
	if *u.of.left--; *u.of.left == -1 {
		*u.of.failed++
		return 0, errFull
	}
	return u.Writer.Write(text)
}

// longName gives a name of which few fill what waits to be written.
func longName(number int) string { return fmt.Sprintf("%02d", number) + strings.Repeat("x", 100) }

// longDevice gives a device with so many files of such names, which have these bytes.
func longDevice(count int, bytes byte) device {
	files := device{}
	for number := 0; number < count; number++ {
		files[longName(number)] = file{bytes: bytes, recorded: bytes}
	}
	return files
}

// putAsked asks for so many names from one on.
func putAsked(history *History, first, count int) error {
	writer := history.AskedWriter("docs", part.Number(ids[0]))
	defer writer.Release()
	for number := first; number < first+count; number++ {
		if err := writer.Put(longName(number), AskedFor{At: 5, Sequence: 7}); err != nil {
			return err
		}
	}
	return writer.End()
}

// Each write of a history fails in turn: who had something kept is told, and the history opens as it was after some write.
func TestEachWriteOfAHistoryThatFails(t *testing.T) {
	const count = 3
	was := mostWaiting
	mostWaiting = 100
	t.Cleanup(func() { mostWaiting = was })
	for what, does := range map[string]func(*History) error{
		"a part":                    func(h *History) error { return h.Take(longDevice(count, 'a').partOf(1, choice.Names{}), night(2)) },
		"other bytes":               func(h *History) error { return h.Take(longDevice(count, 'b').partOf(0, choice.Names{}), night(2)) },
		"files that are gone":       func(h *History) error { return h.Take(device{}.partOf(0, choice.Names{}), night(2)) },
		"what was asked for":        func(h *History) error { return putAsked(h, 0, count) },
		"what isn't asked any more": func(h *History) error { return putAsked(h, count, 1) },
		"what is put": func(h *History) error {
			writer := h.AskedWriter("docs", part.Number(ids[0]))
			defer writer.Release()
			return writer.Put(longName(count), AskedFor{At: 5, Sequence: 7})
		},
		"what stays as it is": func(h *History) error {
			writer := h.AskedWriter("docs", part.Number(ids[0]))
			defer writer.Release()
			return writer.Stay(longName(count)) // what is before it is forgotten
		},
		"an audit": func(h *History) error {
			_, err := h.Keep(night(2), named("a b"), func(Fault) bool { return true })
			return err
		},
	} {
		tried := 0
		for isOver := false; !isOver; tried++ {
			left, failed := 1<<30, 0
			files := unwritable{storage.NewMemStorage(), &left, &failed}
			history, err := openIn(files)
			if err != nil {
				t.Fatal(err)
			}
			history.now = func() time.Time { return night(10000) }
			if err = history.Take(longDevice(count, 'a').partOf(0, choice.Names{}), night(1)); err == nil {
				err = putAsked(history, 0, count)
			}
			if err != nil {
				t.Fatal(err)
			}
			left = tried
			err = does(history)
			if (err != nil) != (failed > 0) || err != nil && !errors.Is(err, errFull) {
				t.Errorf("%s, write %d: %d failed, and it is told as %v", what, tried, failed, err)
			}
			isOver, left = failed == 0, 1<<30
			history.db.Close()
			again, err := openIn(files)
			if err != nil {
				t.Fatalf("%s, write %d: %v", what, tried, err)
			}
			if _, err := again.Since(Audited{At: night(3), Folders: map[string][]uint64{"docs": {part.Number(ids[0])}}, Names: func(string, string) bool { return true }}); err != nil {
				t.Errorf("%s, write %d: %v", what, tried, err)
			}
			again.db.Close()
		}
		if tried < 2 {
			t.Errorf("%s: nothing is written", what)
		}
	}
}
