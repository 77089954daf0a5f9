// Package part has what one device tells of its folders: what its index says, what it knows of others' indexes, and what
// stands on its disk. Hashes stand in place of bytes. A part is a stream: a head, then for each folder its names, rising
// byte by byte. It holds no private key and no file's bytes.
package part

import (
	"math"
	"sort"
	"time"

	"syncthing-audit/bep"
	"syncthing-audit/choice"
	"syncthing-audit/shell"
)

// Kinds of what a check document can't say, in the words of --leave-out.
const (
	Ignored    = "ignored"    // .stignore ignores the name
	Unreadable = "unreadable" // what stands on the disk can't be read
	Changing   = "changing"   // it changed while it was read
	Special    = "special"    // a fifo, a socket, a device
	OddName    = "names"      // no name that a document has
	OddTarget  = "targets"    // no target that a document has
	OddRecord  = "records"    // an entry of the index that no document has
	Rescan     = "rescan"     // the entry waits for a scan
	Large      = "large"      // too much for a row or, with bytes, for a document
	Absent     = "absent"     // a device that shares the folder has no part
	Encrypted  = "encrypted"  // a folder that is encrypted somewhere
	Unshared   = "unshared"   // a folder that one device shares and the other doesn't
	Moment     = "moment"     // a device whose part or look is of another moment than the others'
	Unknown    = "unknown"    // a device that is asked over the wire answers, and not so that this is known
)

// Damaged is the kind of what the disk itself fails to give. That is a fault of the device, and never left out on request.
const Damaged = "damaged"

// Kinds are all that may be left out.
var Kinds = []string{Ignored, Unreadable, Changing, Special, OddName, OddTarget, OddRecord, Rescan, Large, Absent, Encrypted, Unshared, Moment, Unknown}

// KindEncrypted is the kind of a folder whose device has it encrypted, of which no document is made.
const KindEncrypted = "encrypted"

// MostAhead is how far a device's clock may be ahead of another one without that being told. Of a part that was made later nobody knows how old it is.
const MostAhead = time.Hour

// Head says whose part it is and what it holds.
type Head struct {
	Version      int       `json:"version"`
	Device       string    `json:"device"`              // its id
	Name         string    `json:"name"`                // as it is configured at itself
	Runs         string    `json:"syncthing,omitempty"` // the version of Syncthing that was started there last
	Made         time.Time `json:"made"`
	choice.Names           // those that were read
	Folders      []Folder  `json:"folders"`        // rising by id
	Look         *Look     `json:"look,omitempty"` // of a device that may run
	Wire         *Wire     `json:"over_wire,omitempty"`
	Half         *Half     `json:"disk_half,omitempty"` // of disks alone
	Index        *Index    `json:"index,omitempty"`
	Newer        *Newer    `json:"newer_index,omitempty"`
	ToRepair     bool      `json:"index_to_repair,omitempty"` // Syncthing is to repair the index at its next start
	Waits        bool      `json:"waits,omitempty"`           // of what a device says before it is looked at: its second look takes --still
	Tells        bool      `json:"progress,omitempty"`        // and its first look takes --progress
	Others       []Other   `json:"other_folders"`             // rising by id; nothing where an older program made the part, which doesn't say
}

// Index is what may be amiss with the index of which a part was made: it isn't Syncthing's present one, say.
type Index struct {
	Written    time.Time `json:"written"`    // when a file of it changed last
	Configured time.Time `json:"configured"` // when config.xml changed last, which was after that
}

// Newer is another index, which may be the device's present one: it was written after the one of which a part was made.
type Newer struct {
	Path    string    `json:"path,omitempty"` // nothing where the part tells no paths
	Written time.Time `json:"written"`
	Read    time.Time `json:"read"` // when the index that was read was written last
	IsOfTwo bool      `json:"of_syncthing_2,omitempty"`
}

// Called names the index for a person.
func (n *Newer) Called() string {
	if n.Path == "" {
		return "another index"
	}
	return shell.Quoted(n.Path)
}

// WhatToDo says what another index may mean for an answer, and what to do then.
func (n *Newer) WhatToDo() string {
	if n.IsOfTwo {
		return "If Syncthing 2 runs on that device now, an answer isn't about what it has, and its index isn't read. If a copy or a snapshot is " +
			"audited, all is well"
	}
	return "If Syncthing has its database there now, an answer isn't about that: name its directory as --data DIR, or as the home where config.xml " +
		"is there, too. If a copy or a snapshot is audited, all is well"
}

// Other is a folder that the device has by its configuration, and that its part hasn't, since it wasn't asked for or isn't there.
type Other struct {
	ID      string   `json:"id"`
	Label   string   `json:"label,omitempty"`
	Devices []string `json:"devices"`        // others that it is shared with
	Away    string   `json:"away,omitempty"` // its directory isn't there: in words

	IsStopped  bool   `json:"stopped,omitempty"`  // it isn't paused, so Syncthing stopped it since it is away
	IsUnmarked bool   `json:"unmarked,omitempty"` // its directory has no marker, and yet something stands in it
	Apart      string `json:"-"`                  // why two looks at it don't go together
}

// MarkAgain says what to do where a folder's directory has no marker, and yet something stands in it. Once Syncthing goes on with the folder, what is missing
// there counts as deleted, so an audit comes before that.
const MarkAgain = "other things are there. If its disk is mounted, pause the folder, put the marker back, and audit again before the folder goes on: " +
	"what is missing there, Syncthing then deletes elsewhere. If it isn't mounted, mount it"

// MapIt says how a folder's directory is found that Syncthing has at another path than this machine.
const MapIt = "--map says where its directory is"

// WhatToDo says what to do about a folder that is away.
func (o *Other) WhatToDo() string {
	if o.IsUnmarked {
		return MarkAgain + ", and audit again"
	}
	return "mount its disk, and audit again"
}

// ResetDeltas has a device and the others tell each other all changes anew.
const ResetDeltas = "start it there once by 'syncthing serve --reset-deltas', as the same user and with the same --home, --config and --data as ever"

// Folder is a folder at the device.
type Folder struct {
	ID                 string    `json:"id"`
	Label              string    `json:"label,omitempty"`
	Kind               string    `json:"kind"`             // as in a check document, or 'encrypted'
	Path               string    `json:"path,omitempty"`   // nothing where the part tells no paths
	Directory          string    `json:"directory"`        // the same for one directory of one machine alone
	Marker             string    `json:"marker,omitempty"` // the name in the directory by which Syncthing knows it, where that isn't UsualMarker
	IndexID            uint64    `json:"index_id,string"`
	Max                int64     `json:"max"`
	IgnoresPermissions bool      `json:"ignores_permissions,omitempty"`
	TimeWindow         int64     `json:"time_window,omitempty"`      // in seconds: times of files that differ by less Syncthing takes for one
	ScansAttributes    bool      `json:"scans_attributes,omitempty"` // owners or extended ones, so it hashes files whose inode changed
	Sharing            []Sharing `json:"sharing"`
	Views              []View    `json:"views"`
	Paused             bool      `json:"paused,omitempty"`         // the device neither takes nor sends anything of it
	PausedDevices      []string  `json:"paused_devices,omitempty"` // others with which it shares the folder, and exchanges nothing
	Writers            []string  `json:"writers,omitempty"`        // what else of Syncthing writes into its directory, in words
	Indexed            int64     `json:"indexed,omitempty"`        // how many names the device's own index has, whichever were asked for
	Rest               *Rest     `json:"rest,omitempty"`           // of a second look; nothing where an older program made it
	Options            *Options  `json:"options,omitempty"`        // nothing where an older program made it
	Ignores            *Ignores  `json:"ignores,omitempty"`        // of disks alone
	IsOpened           bool      `json:"opened,omitempty"`         // over the wire: it is encrypted there, and was read with its password
	WentBackFrom       int64     `json:"went_back_from,omitempty"` // over the wire: as Wire has it, of this folder
}

// Options are what else of a folder's configuration decides to which end its names come.
type Options struct {
	MaxConflicts     int       `json:"max_conflicts"` // how many conflict copies of a name are kept: below 0 all
	IgnoresDeletions bool      `json:"ignores_deletions,omitempty"`
	IgnoresCase      bool      `json:"ignores_case,omitempty"` // the disk takes names for one that differ by upper and lower case alone
	Versions         *Versions `json:"old_versions,omitempty"` // nothing where an older program made it
}

// Sharing is another device that the folder is shared with, by the device's own configuration.
type Sharing struct {
	Device    string `json:"device"`
	Name      string `json:"name"`
	Encrypted bool   `json:"encrypted,omitempty"`
}

// View is what the device knows of another device's index.
type View struct {
	Device  string `json:"device"`
	IndexID uint64 `json:"index_id,string"`
	Max     int64  `json:"max"`
	Heard   int64  `json:"heard,omitempty"` // of two looks: the greatest sequence at the second one, where max is that of the first
}

// Line is one line of a part behind its head: exactly one of these is there.
type Line struct {
	Begin *Begin `json:"begin,omitempty"`
	Name  *Name  `json:"name,omitempty"`
	End   *End   `json:"end,omitempty"`
}

// Begin begins the names of a folder.
type Begin struct {
	Folder string `json:"folder"`
}

// End ends the names of a folder.
type End struct {
	Folder string `json:"folder"`
	Names  int64  `json:"names"`
	Bytes  int64  `json:"bytes"`          // that were hashed
	Max    int64  `json:"max"`            // the greatest sequence now, to be that of the head
	Last   bool   `json:"last,omitempty"` // no folder follows

	Temporary *Count     `json:"temporary,omitempty"` // names that Syncthing takes for its temporary files; nothing where an older program made the part
	Linked    *Count     `json:"linked,omitempty"`    // names of files that have links elsewhere; nothing where some names alone were read, or an older program made the part
	Holding   *Holding   `json:"holding,omitempty"`   // nothing where no directory holds such a name, or an older program made the part
	Deletable *Deletable `json:"deletable,omitempty"` // nothing where none holds one that goes with it, or an older program made the part
	ToIgnore  int64      `json:"to_ignore,omitempty"` // directories that .stignore ignores by now, and whose records the next scan marks
}

// Count is of names.
type Count struct {
	Names int64 `json:"names"`
	Bytes int64 `json:"bytes"`
}

// Add counts more names.
func (c *Count) Add(names, bytes int64) {
	c.Names = Sum(c.Names, names)
	c.Bytes = Sum(c.Bytes, bytes)
}

// Sum adds what parts count, up to the greatest number: a part may say any size, and a sum of many isn't below 0.
func Sum(one, other int64) int64 {
	if one > 0 && other > math.MaxInt64-one {
		return math.MaxInt64
	}
	return one + other
}

// Name is all that the device has of one name.
type Name struct {
	Name  Bytes     `json:"name"`
	Own   *Record   `json:"own,omitempty"`
	Views []Seen    `json:"views,omitempty"`
	Disk  *Node     `json:"disk,omitempty"`
	Out   []LeftOut `json:"out,omitempty"`

	Receiving string   `json:"receiving,omitempty"` // of a look: which temporary file Syncthing has of it
	Differ    *Differ  `json:"differ,omitempty"`    // over the wire, where the disks are in another part: which blocks of the file there differ
	NotRead   bool     `json:"not_read,omitempty"`  // over the wire: its bytes weren't asked for this time
	Moved     []string `json:"moved,omitempty"`     // what changed while the device was looked at; the rest isn't told then

	Waits *Name `json:"-"` // in memory alone, of a name that waits for a scan: its record and its disk, as both looks saw them
}

// Seen is a record in a view. Most records are the own one with another sequence. In a part they are written so. In memory
// the record is always there: where it is the own one, Same is its sequence in the view.
type Seen struct {
	View   int     `json:"view"`           // the place among the folder's views
	Same   int64   `json:"same,omitempty"` // the sequence of a record that is the own one but for it
	Record *Record `json:"record,omitempty"`
}

// Sequence gives the record's sequence in the view.
func (s *Seen) Sequence() int64 {
	if s.Same != 0 {
		return s.Same
	}
	return s.Record.Sequence
}

// Record is an entry of an index, as it goes over the wire.
type Record struct {
	Type        int      `json:"type"`
	ModifiedS   int64    `json:"s"`
	ModifiedNs  int      `json:"ns,omitempty"`
	ModifiedBy  uint64   `json:"by"`
	Version     Version  `json:"version"`
	Local       Version  `json:"local,omitempty"` // of a local change of a device that only receives: the version that its index has
	Sequence    int64    `json:"sequence"`
	Deleted     bool     `json:"deleted,omitempty"`
	Invalid     bool     `json:"invalid,omitempty"`
	Content     *Content `json:"content,omitempty"` // of a file that isn't deleted
	Target      string   `json:"target,omitempty"`
	Permissions *uint32  `json:"permissions,omitempty"` // none where the entry has none

	Blocks [][32]byte `json:"-"` // in memory alone, for documents with bytes
}

// Node is what stands on the disk.
type Node struct {
	Type        int       `json:"type"`
	ModifiedS   int64     `json:"s"`
	ModifiedNs  int       `json:"ns,omitempty"`
	Size        int64     `json:"size,omitempty"`     // of a file
	Contents    []Content `json:"contents,omitempty"` // the first one by the own record's block size
	Target      string    `json:"target,omitempty"`
	Permissions uint32    `json:"permissions"`
	Differ      *Differ   `json:"differ,omitempty"`
	Lost        string    `json:"lost,omitempty"`   // why the disk fails to give the file's bytes; its contents are those of no file then
	Unread      int64     `json:"unread,omitempty"` // bytes at a file's end that weren't hashed: its contents are those of no other file then
	Stamp       string    `json:"stamp,omitempty"`  // of a look: another one for each file and directory, and for each write to a file
	Link        int64     `json:"link,omitempty"`   // of a file with several names (hard links): a number that they share, and no other file has

	Data []byte `json:"-"` // in memory alone, for documents with bytes
}

// Content is a file's list of block hashes: how long the file is, how it is cut, and the SHA-256 of the hashes one after
// another. If a file has one block, its block size isn't part of the content.
type Content struct {
	Size      int64 `json:"size"`
	BlockSize int64 `json:"block_size"`
	Hash      Hash  `json:"hash"`
}

// CountOfBlocks gives how many blocks a file of this size has: an empty one has one.
func CountOfBlocks(size, blockSize int64) int64 {
	if size == 0 {
		return 1
	}
	return (size-1)/blockSize + 1
}

// IsCutAs says whether files of two contents are cut alike. For a file of one block the block size makes no difference.
func (c *Content) IsCutAs(other *Content) bool {
	return c.BlockSize == other.BlockSize || CountOfBlocks(c.Size, c.BlockSize) == 1 && CountOfBlocks(other.Size, other.BlockSize) == 1
}

// IsSame says whether two contents are of the same bytes, cut alike: whether their lists of block hashes are one.
func (c *Content) IsSame(other *Content) bool {
	return c.Size == other.Size && c.Hash == other.Hash && c.IsCutAs(other)
}

// MostRanges is how many ranges of blocks a part lists of a file.
const MostRanges = 64

// Differ says which blocks of a file differ from the own record.
type Differ struct {
	Count  int64      `json:"count"`  // of all of them
	Ranges [][2]int64 `json:"ranges"` // first and last, from 0, rising; where there are more, the first MostRanges
	First  Pair       `json:"first"`
}

// Unlisted gives how many blocks that differ stand in no range.
func (d *Differ) Unlisted() int64 {
	left := d.Count
	for _, span := range d.Ranges {
		left -= span[1] - span[0] + 1
	}
	return left
}

// Pair is the first block that differs, as it is recorded and as it is; a block that isn't there has no hash.
type Pair struct {
	Recorded *Hash `json:"recorded,omitempty"`
	Found    *Hash `json:"found,omitempty"`
}

// LeftOut says what of a name a check document can't say, and why.
type LeftOut struct {
	Kind  string `json:"kind"`
	Why   string `json:"why"`
	Bytes int64  `json:"bytes,omitempty"`
	Below bool   `json:"below,omitempty"` // all below the name, too
}

// Number gives a device's number: the first 8 bytes of its id; 0 for what is no id.
func Number(device string) uint64 {
	id, err := bep.ReadID(device)
	if err != nil {
		return 0
	}
	return id.Short()
}

// Number gives the number of the part's device.
func (h *Head) Number() uint64 { return Number(h.Device) }

// Folder gives the folder of this id, or nothing.
func (h *Head) Folder(id string) *Folder {
	place := sort.Search(len(h.Folders), func(place int) bool { return h.Folders[place].ID >= id })
	if place < len(h.Folders) && h.Folders[place].ID == id {
		return &h.Folders[place]
	}
	return nil
}

// Other gives the folder of this id that the part hasn't and the device has, or nothing.
func (h *Head) Other(id string) *Other {
	place := sort.Search(len(h.Others), func(place int) bool { return h.Others[place].ID >= id })
	if place < len(h.Others) && h.Others[place].ID == id {
		return &h.Others[place]
	}
	return nil
}

// Stream gives the lines of a part one by one; io.EOF after the last.
type Stream interface {
	Head() *Head
	Next() (Line, error)
}

// Sink takes the lines of a part one by one.
type Sink func(Line) error
