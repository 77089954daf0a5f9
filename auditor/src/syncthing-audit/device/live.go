package device

import (
	"encoding/binary"
	"errors"
	"fmt"
	"os"
	"path/filepath"

	"github.com/syncthing/syncthing/lib/db"
	"github.com/syndtr/goleveldb/leveldb"
	"github.com/syndtr/goleveldb/leveldb/util"
	"syncthing-audit/directory"
)

// OpenLive reads a home whose Syncthing may run, and opens a copy of its index as it was at one moment after the call. No
// lock is taken, and nothing of the home is changed.
func OpenLive(dir, data string, maps ...Map) (*Home, error) {
	return openWith(dir, data, maps, (*Home).openLiveIndex)
}

// Identity gives a text that is the same for one home's index on one machine alone.
func (h *Home) Identity() (string, error) { return directory.Place(h.database()) }

// bytesOfFolder is how long the number of a folder is in keys; the key that has its id has room for more.
const bytesOfFolder = 4

// openLiveIndex copies the index to a temporary folder and opens the copy.
func (h *Home) openLiveIndex() error {
	h.isLive = true
	database := h.database()
	if _, err := os.Stat(filepath.Join(database, "CURRENT")); errors.Is(err, os.ErrNotExist) {
		return h.noIndex()
	}
	var err error
	if h.copied, err = roomFor(database); err != nil {
		return err
	}
	if h.Copied, err = copyLive(database, h.copied, checkLive); err != nil {
		if isFull(err) {
			return notCopied(err)
		}
		return fmt.Errorf("refused: %s: its index wasn't copied in %d rounds: %w", h.Dir, h.Copied.Rounds, err)
	}
	return h.openCopy()
}

// checkLive says why a copy isn't whole, or has entries behind a folder's greatest sequence.
func checkLive(copied string) error {
	said, err := readManifest(copied)
	if err == nil {
		err = said.check(copied)
	}
	if err != nil {
		return err
	}
	opened, err := openStrictly(copied)
	if err != nil {
		return fmt.Errorf("%w: the copy can't be opened: %v", errAgain, err)
	}
	defer opened.Close()
	return checkSequences(opened)
}

// checkSequences says which folder has own entries behind its greatest sequence. Syncthing writes a large update in
// several steps, with the greatest sequence in each. Were it otherwise, its package would mend the copy on opening it, and
// give the index another id.
func checkSequences(opened *leveldb.DB) error {
	folders := opened.NewIterator(util.BytesPrefix([]byte{db.KeyTypeFolderIdx}), nil)
	defer folders.Release()
	for folders.Next() {
		if len(folders.Value()) == 0 {
			continue // it is deleted
		}
		number := append([]byte(nil), folders.Key()[1:1+bytesOfFolder]...)
		greatest, err := greatestSequence(opened, number)
		if err != nil {
			return err
		}
		later := opened.NewIterator(sequencesBehind(number, greatest), nil)
		isThere := later.Next()
		later.Release()
		if err := later.Error(); err != nil {
			return err
		}
		if isThere {
			return fmt.Errorf("%w: folder %s has entries behind its greatest sequence", errAgain, folders.Value())
		}
	}
	return folders.Error()
}

// greatestSequence gives what an index says is the greatest sequence of a folder's own entries; 0 without any.
func greatestSequence(opened *leveldb.DB, folder []byte) (int64, error) {
	text, err := opened.Get(append([]byte{db.KeyTypeFolderMeta}, folder...), nil)
	if err == leveldb.ErrNotFound {
		return 0, nil
	}
	if err != nil {
		return 0, err
	}
	return sequenceIn(text)
}

// sequencesBehind gives where the index has entries of a folder with greater sequences.
func sequencesBehind(folder []byte, sequence int64) *util.Range {
	all := util.BytesPrefix(append([]byte{db.KeyTypeSequence}, folder...))
	start := append([]byte(nil), all.Start...)
	all.Start = binary.BigEndian.AppendUint64(start, uint64(sequence)+1)
	return all
}
