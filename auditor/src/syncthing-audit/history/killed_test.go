package history

import (
	"errors"
	"testing"

	"github.com/syndtr/goleveldb/leveldb/storage"
	"syncthing-audit/choice"
)

var errKilled = errors.New("no more is written")

// dying is a storage to which nothing is written any more after so many writes, as where a process is killed.
type dying struct {
	storage.Storage
	left *int
}

type dyingFile struct {
	storage.Writer
	left *int
}

func (d dying) Create(file storage.FileDesc) (storage.Writer, error) {
	if *d.left <= 0 {
		return nil, errKilled
	}
	made, err := d.Storage.Create(file)
	return dyingFile{made, d.left}, err
}

func (d dying) Rename(from, to storage.FileDesc) error {
	if *d.left <= 0 {
		return errKilled
	}
	return d.Storage.Rename(from, to)
}

func (d dying) Remove(file storage.FileDesc) error {
	if *d.left <= 0 {
		return errKilled
	}
	return d.Storage.Remove(file)
}

func (d dying) SetMeta(file storage.FileDesc) error {
	if *d.left <= 0 {
		return errKilled
	}
	return d.Storage.SetMeta(file)
}

// Write writes half of what it is given where it is the last one.
func (d dyingFile) Write(data []byte) (int, error) {
	*d.left--
	switch {
	case *d.left > 0:
		return d.Writer.Write(data)
	case *d.left == 0:
		d.Writer.Write(data[:len(data)/2])
	}
	return 0, errKilled
}

// Wherever a process is killed, the history can be opened again. What it had is there, or what it was given; and the audit that is kept again has its
// news, so none is lost.
func TestKilledAtEachWrite(t *testing.T) {
	devices := device{"a": {bytes: 'a'}, "b": {bytes: 'b'}}
	audited := func(Fault) bool { return true }
	for writes, isOver := 1, false; !isOver; writes++ {
		files := storage.NewMemStorage()
		left := 1 << 30
		history, err := openIn(dying{files, &left})
		if err != nil {
			t.Fatal(err)
		}
		history.mustTake(t, 0, devices)
		if _, err := history.Keep(night(0), named("a b"), audited); err != nil {
			t.Fatal(err)
		}
		left = writes
		rotten := device{"a": {bytes: 'x'}, "b": {bytes: 'b'}}
		err = history.Take(rotten.partOf(0, choice.Names{}), night(1))
		if err == nil {
			_, err = history.Keep(night(1), named("b c"), audited)
		}
		isOver = err == nil
		left = 0
		history.Close()

		left = 1 << 30
		history, err = openIn(files)
		if err != nil {
			t.Fatalf("%d writes: %v", writes, err)
		}
		for name, reading := range history.readings(t, 0) {
			if is := reading.Content.Hash[0]; is != devices[name].bytes && is != rotten[name].bytes {
				t.Errorf("%d writes: %s is %c", writes, name, is)
			}
		}
		history.mustTake(t, 1, rotten)
		news, err := history.Keep(night(1), named("b c"), audited)
		if err != nil || news.words() != "c|b|a|" {
			t.Errorf("%d writes: %q, %v", writes, news.words(), err)
		}
		if read := history.readings(t, 0); len(read) != 2 || read["a"].Content.Hash[0] != 'x' {
			t.Errorf("%d writes: %v", writes, read)
		}
		history.Close()
		if writes > 1000 {
			t.Fatal("no end of writes")
		}
	}
}
