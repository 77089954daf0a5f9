package history

import (
	"errors"
	"fmt"
	"io"
	"testing"
	"time"

	"github.com/syndtr/goleveldb/leveldb/storage"
	"syncthing-audit/choice"
	"syncthing-audit/part"
)

var errUnread = errors.New("no more is read")

// unreadable is a storage of which one read fails, behind so many. Those after it don't, so who passes over the error isn't told by another one.
type unreadable struct {
	storage.Storage
	left, failed *int
}

type unreadableFile struct {
	storage.Reader
	of unreadable
}

func (u unreadable) Open(file storage.FileDesc) (storage.Reader, error) {
	if err := u.read(); err != nil {
		return nil, err
	}
	opened, err := u.Storage.Open(file)
	return unreadableFile{opened, u}, err
}

func (u unreadable) read() error {
	if *u.left--; *u.left == -1 {
		*u.failed++
		return errUnread
	}
	return nil
}

func (u unreadableFile) ReadAt(to []byte, at int64) (int, error) {
	if err := u.of.read(); err != nil {
		return 0, err
	}
	return u.Reader.ReadAt(to, at)
}

// oldHistory gives the files of a history of two devices, two nights and some faults, with so many more names.
func oldHistory(t *testing.T, more int) storage.Storage {
	files := storage.NewMemStorage()
	for day := 0; day < 2; day++ { // each opening puts what was written before into a table
		history, err := openIn(files)
		if err != nil {
			t.Fatal(err)
		}
		history.now = func() time.Time { return night(10000) }
		for place := 0; place < 2; place++ {
			device := device{"a": {bytes: byte('a' + day)}, "b": {bytes: 'b'}, "c": {bytes: byte('c' + place)}}
			for number := 0; number < more; number++ {
				device[fmt.Sprintf("n%060d", number)] = file{bytes: byte(number)}
			}
			if err := history.Take(device.partOf(place, choice.Names{}), night(day)); err != nil {
				t.Fatal(err)
			}
			asked := history.AskedWriter("docs", part.Number(ids[place]))
			err := asked.Put("b", AskedFor{int64(day), 1})
			for number := 0; err == nil && number < more; number++ {
				err = asked.Put(fmt.Sprintf("n%060d", number), AskedFor{int64(day), 1})
			}
			if err == nil {
				err = asked.End()
			}
			if asked.Release(); err != nil {
				t.Fatal(err)
			}
		}
		if _, err := history.Keep(night(day), named("a b"), func(Fault) bool { return true }); err != nil {
			t.Fatal(err)
		}
		if err := history.db.Close(); err != nil {
			t.Fatal(err)
		}
	}
	return files
}

// copyOf copies the files of a history.
func copyOf(t *testing.T, files storage.Storage) storage.Storage {
	copied := storage.NewMemStorage()
	all, err := files.List(storage.TypeAll)
	if err != nil {
		t.Fatal(err)
	}
	for _, file := range all {
		from, err := files.Open(file)
		if err != nil {
			t.Fatal(err)
		}
		to, err := copied.Create(file)
		if err == nil {
			_, err = io.Copy(to, from)
		}
		from.Close()
		if err != nil || to.Close() != nil {
			t.Fatal(err)
		}
	}
	current, err := files.GetMeta()
	if err == nil {
		err = copied.SetMeta(current)
	}
	if err != nil {
		t.Fatal(err)
	}
	return copied
}

// manyBlocks is of how many names a history takes several blocks, each of which is read by itself.
const manyBlocks = 100

// questions are all that a history is asked, and what is put into it.
var questions = map[string]func(history *History) error{
	"take": func(history *History) error {
		for place := 0; place < 2; place++ {
			if err := history.Take(device{"a": {bytes: 'x'}, "c": {bytes: 'y'}}.partOf(place, choice.Names{}), night(2)); err != nil {
				return err
			}
		}
		return nil
	},
	"take other": func(history *History) error {
		return history.Take(device{"a": {bytes: 'x'}}.partOf(1, choice.Names{}), night(2))
	},
	"take no names": func(history *History) error { // of a part that ends early
		stream := device{}.partOf(1, choice.Names{})
		stream.lines = stream.lines[:1]
		return history.Take(stream, night(2))
	},
	"keep": func(history *History) error {
		_, err := history.Keep(night(2), named("b c"), func(Fault) bool { return true })
		return err
	},
	"spread": func(history *History) error {
		return history.EachSpread(func(string) []uint64 { return []uint64{part.Number(ids[0]), part.Number(ids[1])} }, func(Spread) error { return nil })
	},
	"asked": func(history *History) error {
		writer := history.AskedWriter("docs", part.Number(ids[0]))
		defer writer.Release()
		err := writer.Stay("a")
		if err == nil {
			_, _, err = writer.Of("b")
		}
		if err == nil {
			err = writer.Put("b", AskedFor{1, 2})
		}
		if err == nil {
			err = writer.End()
		}
		return err
	},
	"asked for": func(history *History) error {
		reader := history.AskedReader("docs", part.Number(ids[1]))
		defer reader.Release()
		for _, name := range []string{"a", "b", "n2"} {
			if _, _, err := reader.Of(name); err != nil {
				return err
			}
		}
		return nil
	},
	"last":   func(history *History) error { _, err := history.Last(); return err },
	"seen":   func(history *History) error { _, err := history.Seen(named("a")[0]); return err },
	"wanted": func(history *History) error { _, err := history.Wanted("docs", "c"); return err },
	"before": func(history *History) error { _, err := history.Wanted("docs", "a"); return err },
	"coverage": func(history *History) error {
		_, err := history.Coverage("docs", part.Number(ids[0]))
		return err
	},
	"since": func(history *History) error {
		numbers := []uint64{part.Number(ids[0]), part.Number(ids[1])}
		_, err := history.Since(Audited{At: night(2), Found: named("b c"), Folders: map[string][]uint64{"docs": numbers},
			IDs: map[uint64]string{numbers[0]: ids[0], numbers[1]: ids[1]}, Names: func(string, string) bool { return true }})
		return err
	},
	"since of none": func(history *History) error { // which devices that were read before are absent is looked up alone
		numbers := []uint64{part.Number(ids[0]), part.Number(ids[1])}
		_, err := history.Since(Audited{At: night(2), Folders: map[string][]uint64{"docs": nil}, Sharing: map[string][]uint64{"docs": numbers},
			Names: func(string, string) bool { return true }})
		return err
	},
}

// Each read of a history fails in turn: what was asked isn't answered then as if all had been read.
func TestEachReadOfAHistoryThatFails(t *testing.T) {
	files := oldHistory(t, manyBlocks)
	for why, ask := range questions {
		failed := 0
		for reads := 0; ; reads++ {
			left, failures := 1<<30, 0
			history, err := openIn(unreadable{copyOf(t, files), &left, &failures})
			if err != nil {
				t.Fatal(err)
			}
			left = reads
			err = ask(history)
			isOver := failures == 0
			left = 1 << 30
			history.db.Close()
			if isOver {
				if err != nil {
					t.Errorf("%s: %v", why, err)
				}
				break
			}
			failed++
			if err == nil {
				t.Errorf("%s: read %d fails, and nothing is told", why, reads+1)
			}
		}
		if failed == 0 {
			t.Errorf("%s: nothing was read", why)
		}
	}
	for reads := 0; ; reads++ {
		left, failures := reads, 0
		history, err := openIn(unreadable{copyOf(t, files), &left, &failures})
		if err == nil {
			history.db.Close()
		}
		if failures == 0 {
			break
		}
		if err == nil {
			t.Errorf("it is opened though read %d fails", reads+1)
		}
	}
}

// Each value of a history that is shorter than what is written there makes each question fail that reads it. None is read as another value.
func TestEachValueThatIsCutOff(t *testing.T) {
	files := oldHistory(t, 0)
	count := countOfKeys(t)
	readsOf := make([]int, count)
	for why, ask := range questions {
		fails := 0
		for place := 0; place < count; place++ {
			history, err := openIn(copyOf(t, files))
			if err != nil {
				t.Fatal(err)
			}
			if err := history.db.Put(keyAt(t, history, place), []byte{1}, nil); err != nil {
				t.Fatal(err)
			}
			if ask(history) != nil {
				fails++
				readsOf[place]++
			}
			history.db.Close()
		}
		if fails == 0 {
			t.Errorf("%s: fails for no value", why)
		}
	}
	isUnread := 0
	for _, reads := range readsOf {
		if reads == 0 {
			isUnread++
		}
	}
	if isUnread != 1 { // that of the format, which is read where a history is opened
		t.Errorf("%d values are read as others by each question", isUnread)
	}
}

func countOfKeys(t *testing.T) int {
	history, err := openIn(oldHistory(t, 0))
	if err != nil {
		t.Fatal(err)
	}
	defer history.db.Close()
	count := 0
	for keyAt(t, history, count) != nil {
		count++
	}
	return count
}

// keyAt gives the key in this place, or nothing behind the last.
func keyAt(t *testing.T, history *History, place int) []byte {
	all := history.db.NewIterator(nil, nil)
	defer all.Release()
	for all.Next() {
		if place == 0 {
			return append([]byte{}, all.Key()...)
		}
		place--
	}
	if err := all.Error(); err != nil {
		t.Fatal(err)
	}
	return nil
}
