package device

import (
	"fmt"

	"github.com/syncthing/syncthing/lib/db"
	"github.com/syncthing/syncthing/lib/protocol"
	"syncthing-audit/choice"
)

// checkCount says whether the index has more entries of a device, of these names, than Syncthing's package gave: it passes over an entry that it can't
// read, as one whose list of blocks is lost, and tells nobody.
func (i *Index) checkCount(of protocol.DeviceID, names choice.Names, given int64) error {
	count, err := i.countOf(of, names)
	if err == nil && count != given {
		err = fmt.Errorf("folder %s: its index can't be read: it has %d entries, and Syncthing's own package passes over all but %d of them", i.Config.ID, count, given)
	}
	return err
}

// countOf counts the keys of a device's entries of these names.
func (i *Index) countOf(of protocol.DeviceID, names choice.Names) (count int64, err error) {
	prefix, err := i.prefixOf(of)
	if err != nil || prefix == "" {
		return count, err
	}
	entries, err := i.home.backend.NewPrefixIterator([]byte(prefix))
	if err != nil {
		return count, err
	}
	defer entries.Release()
	for entries.Next() {
		name := string(entries.Key()[len(prefix):])
		if names.Has(i.Config.ID, name) {
			count++
		} else if names.IsPast(name) {
			break
		}
	}
	return count, entries.Error()
}

// prefixOf gives what the keys of a device's entries begin with, before their names; nothing where the index has no number of the device or the folder.
func (i *Index) prefixOf(of protocol.DeviceID) (string, error) {
	folder, err := i.numberOf(db.KeyTypeFolderIdx, i.Config.ID)
	if err != nil || folder == "" {
		return "", err
	}
	device, err := i.numberOf(db.KeyTypeDeviceIdx, string(of[:]))
	if err != nil || device == "" {
		return "", err
	}
	return string([]byte{db.KeyTypeDevice}) + folder + device, nil
}

// numberOf gives the number of a folder or a device in the keys of entries, which are of one length; nothing of one that the index hasn't.
func (i *Index) numberOf(kind byte, of string) (string, error) {
	all, err := i.home.backend.NewPrefixIterator([]byte{kind})
	if err != nil {
		return "", err
	}
	defer all.Release()
	for all.Next() {
		if string(all.Value()) == of {
			return string(all.Key()[1 : 1+bytesOfFolder]), nil
		}
	}
	return "", all.Error()
}
