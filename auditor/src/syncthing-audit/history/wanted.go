package history

import (
	"encoding/binary"
	"math"

	"golang.org/x/exp/slices"
)

// Wanted gives what was read of a name with the bytes that one may look for: those before they changed under their time, on whichever device; where
// none changed, those that were read last; where no device has it any more, those of the file that is gone. Each bytes are there once.
func (h *History) Wanted(folder, name string) ([]Reading, error) {
	found, err := h.before(folder, name)
	if err == nil && len(found) == 0 {
		found, err = h.last(folder, name)
	}
	if err == nil && len(found) == 0 {
		found, err = h.lastGone(folder, name)
	}
	return found, err
}

// lastGone gives what was read last of a file where it is gone.
func (h *History) lastGone(folder, name string) ([]Reading, error) {
	found := []Reading{}
	err := h.each(keyOfName(ofGone, folder, name), func(_, value []byte) error {
		of, err := readGone(value)
		if err == nil {
			found = withContent(found, of.before)
		}
		return err
	})
	return found, err
}

// before gives the readings before bytes changed under their time.
func (h *History) before(folder, name string) ([]Reading, error) {
	found := []Reading{}
	err := h.each(keyOfName(ofChange, folder, name), func(_, value []byte) error {
		change, err := readChange(value)
		if err == nil {
			found = withContent(found, change.Before)
		}
		return err
	})
	return found, err
}

// last gives the last readings on all devices.
func (h *History) last(folder, name string) ([]Reading, error) {
	found, of := []Reading{}, keyOfReadings(folder, 0)
	of = of[:len(of)-8]
	all := h.db.NewIterator(nil, nil)
	defer all.Release()
	for device := uint64(0); all.Seek(keyOfReading(folder, device, name)); {
		key := all.Key()
		if len(key) < len(of)+8 || string(key[:len(of)]) != string(of) {
			break
		}
		at := binary.BigEndian.Uint64(key[len(of):])
		if at > device {
			device = at
			continue
		}
		if string(key[len(of)+8:]) == name {
			reading, err := readReading(all.Value())
			if err != nil {
				return nil, err
			}
			found = withContent(found, *reading)
		}
		if device == math.MaxUint64 {
			break
		}
		device++
	}
	return found, all.Error()
}

// withContent adds a reading, unless one has its content.
func withContent(found []Reading, reading Reading) []Reading {
	if slices.IndexFunc(found, func(other Reading) bool { return other.Content == reading.Content }) >= 0 {
		return found
	}
	return append(found, reading)
}
