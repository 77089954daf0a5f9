// Package forecast says to which ends a folder of Syncthing devices comes. It has a model of what Syncthing 1.19 and 1.29 do: scans, the
// exchange of indexes, the choice of a version, pulls, conflict copies, found renames, directories, Revert and Override.
//
// A World is what the devices have now: own records, what each knows of the others, and what stands on the disks. Forecast gives the ends
// of it: the states in which no step changes anything any more. Where steps may go in more than one order, or one step in more than one
// way, all of them are tried if the world is small, and else some in random order. The answer says which, and how many.
//
// The package predicts, and says nothing in words. It reads nothing, and changes nothing.
//
// What the model leaves out: .stignore, but for directories that hold what it keeps out, encrypted folders, blocks (a file has its bytes as a whole or not at all), owners and extended
// attributes, what is behind a symlink, errors of a disk, and clocks that run wrong.
package forecast

// Kind is the kind of a folder at a device.
type Kind uint8

const (
	SendReceive Kind = iota
	SendOnly
	ReceiveOnly
)

// Type is what stands at a name.
type Type uint8

const (
	File Type = iota + 1
	Directory
	Symlink
)

var wordsOfTypes = map[Type]string{File: "file", Directory: "directory", Symlink: "symlink"}

// Word names a type.
func (t Type) Word() string { return wordsOfTypes[t] }

// MarshalText gives a type's word.
func (t Type) MarshalText() ([]byte, error) { return []byte(t.Word()), nil }

// UnmarshalText reads it; another word is of no type.
func (t *Type) UnmarshalText(text []byte) error {
	*t = 0
	for kind, word := range wordsOfTypes {
		if word == string(text) {
			*t = kind
		}
	}
	return nil
}

// Flag says whether a record is valid, and why it isn't.
type Flag uint8

const (
	Valid        Flag = iota
	LocalChange       // of a device that only receives
	Invalid           // at another device, which told no more
	MustBeHashed      // it waits for a scan
)

// NoMode is the mode of a record without permissions, and of a symlink.
const NoMode = -1

// World is a folder at all devices that share it, with the names that matter.
type World struct {
	Devices []Device
	Names   []Name // each once, in any order
}

// Device is a device and the options of its folder.
type Device struct {
	ID                string
	Kind              Kind
	Release           Release
	Number            uint64   // the first 8 bytes of its id
	IgnorePermissions bool     // Syncthing's 'ignorePerms'
	IgnoreDelete      bool     // Syncthing's 'ignoreDelete'
	MaxConflicts      int      // Syncthing's 'maxConflicts': below 0 all copies are kept
	TimeWindow        int64    // in nanoseconds: times that differ by less are one
	Apart             Places   // devices with which it exchanges nothing
	Versions          Versions `json:",omitempty"`
}

// Places is a set of devices by their places in a world.
type Places uint32

// Has says whether a device is one of these.
func (p Places) Has(place int) bool { return p&(1<<place) != 0 }

// Name is a name and what the devices have of it. Each list has a place for each device.
type Name struct {
	Name  string
	Own   []*Record
	Views [][]*Record // Views[i][j] is what device i knows of device j
	Disk  []*Node
	Holds Places `json:",omitempty"` // devices on whose disks the directory has something that .stignore keeps out, and that doesn't go with it
	Bars  Places `json:",omitempty"` // devices whose system can't have such a name

	Ignored []Ignored `json:",omitempty"` // of each device, if of any: what .stignore keeps out with (?d) in the directory on its disk
}

// Ignored counts names that Syncthing deletes with their directory, or as it tries to delete that.
type Ignored struct{ Names, Bytes int64 }

// ignores gives the devices on whose disks there are such names.
func (n *Name) ignores() (places Places) {
	for place := range n.Ignored {
		if n.Ignored[place].Names > 0 {
			places |= 1 << place
		}
	}
	return places
}

// Record is an entry of an index.
type Record struct {
	Type    Type
	Deleted bool
	Flag    Flag
	Version []Counter // rising by device
	Time    int64     // in nanoseconds
	Content Content
	Target  string
	Mode    int
}

// Counter is one counter of a version vector.
type Counter struct{ Device, Value uint64 }

// Node is what stands on a disk.
type Node struct {
	Type    Type
	Time    int64
	Content Content
	Target  string
	Mode    int
}

// Content is a file's bytes, by their count and a hash. Without a hash there are none: of a directory, say.
type Content struct {
	Size int64  `json:"size"`
	Hash string `json:"content,omitempty"` // SHA-256 of the SHA-256 hashes of its blocks
}
