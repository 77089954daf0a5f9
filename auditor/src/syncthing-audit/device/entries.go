package device

import (
	"fmt"

	"github.com/syncthing/syncthing/lib/protocol"
	"syncthing-audit/adapt"
	"syncthing-audit/choice"
	"syncthing-audit/part"
)

// viewedEntry reads another device's entry, without the hash of its list of blocks. Of what that device ignores, or is to scan anew, it tells neither size
// nor blocks.
func viewedEntry(entry *protocol.FileInfo) Entry {
	if entry.IsInvalid() && !entry.Deleted && entry.Type == protocol.FileInfoTypeFile && len(entry.Blocks) == 0 {
		return leftOut(entry, part.Ignored, part.WhyIgnoredElsewhere)
	}
	return entryWithoutHash(entry)
}

// entries reads what the index has of one device. Syncthing's own package makes each entry anew, several times over. So the entries are read here up to
// the first one that isn't plain, and it is asked for those from there on.
func (i *Index) entries(of protocol.DeviceID, names choice.Names, greatest int64, read func(*protocol.FileInfo) Entry, take func(Entry) bool) (err error) {
	defer recovered(i.Config.ID, &err)
	give := func(entry *protocol.FileInfo) bool {
		next := read(entry)
		if next.Record != nil && (entry.Sequence < 1 || entry.Sequence > greatest) {
			next = leftOut(entry, i.kindOfOddSequence(), fmt.Sprintf("its sequence %d isn't 1 to %d", entry.Sequence, greatest))
		}
		return take(next)
	}
	given, isOver, err := i.plainEntries(of, names, give)
	if isOver || err != nil {
		return err
	}
	return i.otherEntries(of, names, given, give)
}

// plainEntries gives a device's entries of these names up to the first one that isn't plain. It says how many it gave, and whether no more are wanted.
func (i *Index) plainEntries(of protocol.DeviceID, names choice.Names, give func(*protocol.FileInfo) bool) (given int64, isOver bool, err error) {
	prefix, err := i.prefixOf(of)
	if err != nil || prefix == "" {
		return 0, false, err
	}
	all, err := i.home.backend.NewPrefixIterator([]byte(prefix))
	if err != nil {
		return 0, false, err
	}
	defer all.Release()
	reader := plainReader{get: i.home.backend.Get}
	for all.Next() {
		entry := reader.read(all.Key()[len(prefix):], all.Value())
		switch {
		case entry == nil:
			return given, false, nil
		case names.Has(i.Config.ID, entry.Name):
			if given++; !give(entry) {
				return given, true, nil
			}
		case names.IsPast(entry.Name):
			return given, true, nil
		}
	}
	return given, true, all.Error()
}

// otherEntries gives a device's entries of these names as Syncthing's own package reads them, but for the first ones, which were given.
func (i *Index) otherEntries(of protocol.DeviceID, names choice.Names, first int64, give func(*protocol.FileInfo) bool) error {
	met, isWanted := int64(0), true
	adapt.Have(i.snapshot.WithHave, of, func(entry protocol.FileInfo) bool {
		if !names.Has(i.Config.ID, entry.Name) {
			return !names.IsPast(entry.Name)
		}
		met++
		isWanted = met <= first || give(&entry)
		return isWanted
	})
	if !isWanted {
		return nil
	}
	return i.checkCount(of, names, met)
}

// kindOfOddSequence gives the kind of an entry whose sequence is above the greatest one. It is left out. The copy of a
// running device's index may be of a moment within an update.
func (i *Index) kindOfOddSequence() string {
	if i.home.isLive {
		return part.Changing
	}
	return part.OddRecord
}
