package history

import (
	"github.com/syndtr/goleveldb/leveldb"
	"golang.org/x/exp/slices"
)

// Change is that a file's bytes changed under one time and size: when it was read with the bytes before, and first with others.
type Change struct{ Before, Since Reading }

func (c *Change) bytes() []byte { return append(c.Before.bytes(), c.Since.bytes()...) }

func readChange(value []byte) (*Change, error) {
	if len(value) != 2*lengthOfReading {
		return nil, errValue
	}
	return &Change{readingIn(value[:lengthOfReading]), readingIn(value[lengthOfReading:])}, nil
}

// valueAt gives the value that a key has; nothing if there is none.
func valueAt[Value any](db *leveldb.DB, key []byte, read func([]byte) (*Value, error)) (*Value, error) {
	value, err := db.Get(key, nil)
	if err == leveldb.ErrNotFound {
		return nil, nil
	}
	if err != nil {
		return nil, err
	}
	return read(value)
}

// changeAt gives the change that a key has; nothing if there is none.
func changeAt(db *leveldb.DB, key []byte) (*Change, error) {
	return valueAt(db, key, readChange)
}

// Spread is a file whose bytes changed under one time on each device that has it, so that all have the same ones now. No comparison of devices shows
// it. Rot that Syncthing took for a change spreads so. A program that puts a file's time back after it wrote looks the same.
type Spread struct {
	Folder, Name string
	Devices      []uint64 // rising
	Change       Change   // the first of theirs, as it was found
}

// EachSpread gives all files whose bytes changed so, by folders and names. The devices are those that share the folder.
func (h *History) EachSpread(devicesOf func(folder string) []uint64, take func(Spread) error) error {
	return h.EachChanged(devicesOf, func(spread Spread, isEverywhere bool) error {
		if !isEverywhere {
			return nil
		}
		return take(spread)
	})
}

// EachChanged gives all files whose bytes changed under one time on some devices, and says of each whether that is so on all that have it.
func (h *History) EachChanged(devicesOf func(folder string) []uint64, take func(spread Spread, isEverywhere bool) error) error {
	var next *Spread
	give := func() error {
		if next == nil {
			return nil
		}
		is, err := h.isSpread(next, devicesOf(next.Folder))
		if err != nil {
			return err
		}
		return take(*next, is)
	}
	err := h.each([]byte{ofChange}, func(key, value []byte) error {
		folder, name, device, _, err := readName(key)
		if err != nil || !slices.Contains(devicesOf(folder), device) {
			return err
		}
		change, err := readChange(value)
		if err != nil {
			return err
		}
		if next == nil || next.Folder != folder || next.Name != name {
			if err := give(); err != nil {
				return err
			}
			next = &Spread{Folder: folder, Name: name, Change: *change}
		}
		if change.Since.At.Before(next.Change.Since.At) {
			next.Change = *change
		}
		next.Devices = append(next.Devices, device)
		return nil
	})
	if err != nil {
		return err
	}
	return give()
}

// taken gives those of these devices that record the bytes of a change.
func (h *History) taken(spread *Spread) ([]uint64, error) {
	taken := []uint64{}
	for _, device := range spread.Devices {
		is, err := h.db.Has(keyOfTaken(spread.Folder, spread.Name, device), nil)
		if err != nil {
			return nil, err
		}
		if is {
			taken = append(taken, device)
		}
	}
	return taken, nil
}

// isSpread says whether all devices that have a file have the same bytes of it, and each of these had others under that time.
func (h *History) isSpread(spread *Spread, devices []uint64) (bool, error) {
	var first *Reading
	for _, device := range devices {
		reading, err := h.readingAt(spread.Folder, device, spread.Name)
		if err != nil {
			return false, err
		}
		if reading == nil {
			continue
		}
		if first != nil && first.Content != reading.Content || !slices.Contains(spread.Devices, device) {
			return false, nil
		}
		first = reading
	}
	return first != nil, nil
}
