package history

import (
	"encoding/binary"
	"errors"
	"sort"
	"strings"
	"syscall"
	"time"

	"github.com/syndtr/goleveldb/leveldb/storage"
)

// What a key is about is its first byte. Neither a folder's id nor a name has a zero byte, which ends them where something follows.
const (
	ofFormat  = 'v'
	ofReading = 'r' // folder, device, name: readings of a device stand in the order of its part
	ofChange  = 'c' // folder, name, device
	ofFault   = 'f' // folder, name, device, cause
	ofLast    = 'l' // of the last audit that was kept
	ofPart    = 'p' // folder, device: when its newest part was made
	ofTaken   = 't' // folder, name, device: that the device records the bytes of a change
	ofAsked   = 'a' // folder, device, name: when the bytes were asked for, where each look asks for some
	ofGone    = 'g' // folder, name, device: what was read last of a file that is gone
	ofEmptied = 'e' // folder, time: that most files went from it
)

func keyOfFormat() []byte { return []byte{ofFormat} }

func keyOfLast() []byte { return []byte{ofLast} }

// keyOfReadings begins the keys of a device's readings in a folder.
func keyOfReadings(folder string, device uint64) []byte {
	key := append([]byte{ofReading}, folder...)
	return binary.BigEndian.AppendUint64(append(key, 0), device)
}

func keyOfReading(folder string, device uint64, name string) []byte {
	return append(keyOfReadings(folder, device), name...)
}

func keyOfAsked(folder string, device uint64, name string) []byte {
	key := keyOfReading(folder, device, name)
	key[0] = ofAsked
	return key
}

func keyOfPart(folder string, device uint64) []byte {
	key := append([]byte{ofPart}, folder...)
	return binary.BigEndian.AppendUint64(append(key, 0), device)
}

// keyOfName begins the keys of what is told of a name.
func keyOfName(kind byte, folder, name string) []byte {
	key := append(append([]byte{kind}, folder...), 0)
	return append(append(key, name...), 0)
}

func keyOfChange(folder, name string, device uint64) []byte {
	return binary.BigEndian.AppendUint64(keyOfName(ofChange, folder, name), device)
}

// keyOfTaken gives the key that says of a change whether its device records the bytes.
func keyOfTaken(folder, name string, device uint64) []byte {
	return binary.BigEndian.AppendUint64(keyOfName(ofTaken, folder, name), device)
}

func keyOfGone(folder, name string, device uint64) []byte {
	return binary.BigEndian.AppendUint64(keyOfName(ofGone, folder, name), device)
}

// keyOfAllGone begins the keys of what is gone from a folder.
func keyOfAllGone(folder string) []byte { return append(append([]byte{ofGone}, folder...), 0) }

// keyOfEmptieds begins the keys of the times at which a folder was emptied.
func keyOfEmptieds(folder string) []byte { return append(append([]byte{ofEmptied}, folder...), 0) }

func keyOfEmptied(folder string, at time.Time) []byte {
	return appendTime(keyOfEmptieds(folder), at)
}

func keyOfFault(fault Fault) []byte {
	return append(binary.BigEndian.AppendUint64(keyOfName(ofFault, fault.Folder, fault.Name), fault.Device), fault.Cause...)
}

var errKey = errors.New("a key isn't one of this format")

// readName reads folder, name and device from a key, and what stands behind.
func readName(key []byte) (folder, name string, device uint64, rest string, err error) {
	parts := strings.SplitN(string(key[1:]), "\x00", 3)
	if len(parts) < 3 || len(parts[2]) < 8 {
		return folder, name, device, rest, errKey
	}
	return parts[0], parts[1], binary.BigEndian.Uint64([]byte(parts[2][:8])), parts[2][8:], nil
}

// isBusy says whether a directory can't be opened since another process has it open.
func isBusy(err error) bool {
	return errors.Is(err, syscall.EWOULDBLOCK) || errors.Is(err, storage.ErrLocked)
}

// sorted gives the folders, rising.
func sorted(folders map[string][]uint64) []string {
	keys := []string{}
	for folder := range folders {
		keys = append(keys, folder)
	}
	sort.Strings(keys)
	return keys
}
