package observe

import (
	"encoding/json"
	"errors"
	"os"

	"github.com/syndtr/goleveldb/leveldb"
	"syncthing-audit/part"
)

// disk is what was found where a file is recorded, or why nothing was.
type disk struct {
	Node *part.Node    `json:"node,omitempty"`
	Out  *part.LeftOut `json:"out,omitempty"`
}

// disks keep what was found, by name, in a directory of their own: so a folder of any size takes little memory.
type disks struct {
	db        *leveldb.DB
	directory string
}

// newDisks makes a directory in a room.
func newDisks(room string) (*disks, error) {
	directory, err := os.MkdirTemp(room, "disks-")
	if err != nil {
		return nil, err
	}
	db, err := leveldb.OpenFile(directory, nil)
	if err != nil {
		os.RemoveAll(directory)
		return nil, err
	}
	return &disks{db, directory}, nil
}

// put keeps what was found of a name.
func (d *disks) put(name string, found disk) error {
	text, err := json.Marshal(found)
	if err != nil {
		return err
	}
	return d.db.Put([]byte(name), text, nil)
}

// get gives what was found of a name, and whether it was asked for.
func (d *disks) get(name string) (disk, bool, error) {
	var found disk
	text, err := d.db.Get([]byte(name), nil)
	if errors.Is(err, leveldb.ErrNotFound) {
		return found, false, nil
	}
	if err == nil {
		err = json.Unmarshal(text, &found)
	}
	return found, true, err
}

// each gives all names of which something was found, rising, with why nothing stands there.
func (d *disks) each(take func(name string, out *part.LeftOut) error) error {
	all := d.db.NewIterator(nil, nil)
	defer all.Release()
	for all.Next() {
		var found disk
		err := json.Unmarshal(all.Value(), &found)
		if err == nil {
			err = take(string(all.Key()), found.Out)
		}
		if err != nil {
			return err
		}
	}
	return all.Error()
}

func (d *disks) close() {
	d.db.Close()
	os.RemoveAll(d.directory)
}
