package observe

import (
	"errors"
	"fmt"
	"os"
	"path/filepath"
	"reflect"
	"syscall"

	"syncthing-audit/device"
	"syncthing-audit/wire"
)

// Kept is a device's index of a folder as the last run took it, and the one that this run takes. A run always takes the whole index: a device that
// went back gives its sequences anew, and what is told since some sequence isn't all then.
type Kept struct {
	directory  string
	lock       *os.File
	last, next *wire.Index
	damage     error // why what was kept is gone; nothing where it isn't
}

// ErrBusy says that another run looks at the device.
var ErrBusy = errors.New("another run of 'observe' looks at this device")

// The directories of an index that is kept. The older one is there while a run puts the next one in its place.
const (
	nameOfLast  = "last"
	nameOfNext  = "next"
	nameOfOlder = "older"
	nameOfLock  = "lock"
)

// OpenKept opens what is kept in a directory, which is made where it isn't there.
func OpenKept(directory string) (*Kept, error) {
	if err := os.MkdirAll(directory, 0o700); err != nil {
		return nil, err
	}
	lock, err := os.OpenFile(filepath.Join(directory, nameOfLock), os.O_CREATE|os.O_RDWR, 0o600)
	if err != nil {
		return nil, err
	}
	kept := &Kept{directory: directory, lock: lock}
	err = syscall.Flock(int(lock.Fd()), syscall.LOCK_EX|syscall.LOCK_NB)
	if errors.Is(err, syscall.EWOULDBLOCK) {
		err = ErrBusy
	}
	if err != nil {
		lock.Close() // and nothing else: what stands there is the other run's
	} else if err = kept.open(); err != nil {
		kept.Close()
	}
	if err != nil {
		return nil, fmt.Errorf("the index that is kept in %s: %w", directory, err)
	}
	return kept, nil
}

func (k *Kept) path(name string) string { return filepath.Join(k.directory, name) }

// open opens both indexes. Where a run was ended while it put one in the other's place, the older one is the last one.
func (k *Kept) open() error {
	if _, err := os.Lstat(k.path(nameOfLast)); errors.Is(err, os.ErrNotExist) {
		if err := os.Rename(k.path(nameOfOlder), k.path(nameOfLast)); err != nil && !errors.Is(err, os.ErrNotExist) {
			return err
		}
	}
	for _, name := range []string{nameOfNext, nameOfOlder} {
		if err := os.RemoveAll(k.path(name)); err != nil {
			return err
		}
	}
	var err error
	k.last, err = wire.OpenIndex(k.path(nameOfLast))
	if wire.IsDamaged(err) { // it would keep each later run from this device, too
		k.damage = err
		if err = os.RemoveAll(k.path(nameOfLast)); err == nil {
			k.last, err = wire.OpenIndex(k.path(nameOfLast))
		}
	}
	if err == nil {
		k.next, err = wire.OpenIndex(k.path(nameOfNext))
	}
	return err
}

// Damage says why what the last run kept couldn't be read, and is gone; nothing where it could. Whether the device went back since isn't known then.
func (k *Kept) Damage() error { return k.damage }

// Next gives the index that this run takes.
func (k *Kept) Next() *wire.Index { return k.next }

// Close closes both indexes. The last one stays what it is.
func (k *Kept) Close() {
	for _, index := range []*wire.Index{k.last, k.next} {
		if index != nil {
			index.Close()
		}
	}
	os.RemoveAll(k.path(nameOfNext))
	k.lock.Close()
}

// Finish puts the index that was taken in place of the last one.
func (k *Kept) Finish() error {
	defer k.Close()
	for _, index := range []*wire.Index{k.last, k.next} {
		if err := index.Close(); err != nil {
			return err
		}
	}
	if err := os.Rename(k.path(nameOfLast), k.path(nameOfOlder)); err != nil {
		return err
	}
	if err := os.Rename(k.path(nameOfNext), k.path(nameOfLast)); err != nil {
		return err
	}
	return os.RemoveAll(k.path(nameOfOlder))
}

// WentBackFrom gives the highest sequence of the last index, if the device has gone back since: it gives that index's sequences anew. It gives 0 if
// it hasn't, or if its index was made anew under another id.
func (k *Kept) WentBackFrom() (int64, error) {
	if k.last.ID != k.next.ID {
		return 0, nil
	}
	if k.next.Highest < k.last.Highest {
		return k.last.Highest, nil
	}
	err := k.next.Each(func(entry device.Entry) error { return k.compare(entry) })
	if errors.Is(err, errGivenAnew) {
		return k.last.Highest, nil
	}
	return 0, err
}

// errGivenAnew ends a comparison of two indexes.
var errGivenAnew = errors.New("a sequence was given anew")

// compare says whether an entry of the index has a sequence of the last one, and isn't the entry of that one.
func (k *Kept) compare(entry device.Entry) error {
	if entry.Record == nil || entry.Record.Sequence > k.last.Highest {
		return nil
	}
	before, _, err := k.last.Get(entry.Name)
	if err == nil && !reflect.DeepEqual(before.Record, entry.Record) {
		err = errGivenAnew
	}
	return err
}
