package part

import (
	"encoding/hex"
	"errors"
	"fmt"
	"math"
	"strings"

	"golang.org/x/exp/slices"
	"syncthing-audit/bep"
)

// Half says that a part is of a device's disks alone: no index was read for it. The observer's part of the same device has the records, and was made
// around this one: the walk began after the observer's first look, whose id it knows, and the second look began once the walk was over, since it knows
// the id of that.
type Half struct {
	ID         string  `json:"id"`         // of the walk, drawn at random
	After      string  `json:"after"`      // the id of the observer's first looks, which were over when the walk began
	System     string  `json:"system"`     // the device's, as Go names it
	BlockSizes []int64 `json:"blocks"`     // rising: into such blocks each file was cut that has more than one of them, beside the size for its length
	Resolution int64   `json:"resolution"` // how many nanoseconds a file's time on the disk counts at once
	NoModes    bool    `json:"no_modes"`   // the system has no permissions as Syncthing records them
}

// Ignores is what a folder's .stignore says, as far as it is known without Syncthing.
type Ignores struct {
	Lines    []string `json:"lines"`               // with those of included files, and slashes on each system
	FoldCase bool     `json:"fold_case,omitempty"` // on this system patterns don't heed case
	Unknown  string   `json:"unknown,omitempty"`   // why it isn't known what they mean, in words
}

// systemOfWindows is the system that has no modes, counts times by 100 ns, and takes a backslash for a slash.
const systemOfWindows = "windows"

// IsWindows says whether the disks are those of Windows.
func (h *Half) IsWindows() bool { return h.System == systemOfWindows }

// NewHalf gives the mark of a part of disks alone.
func NewHalf(id, after, system string, blockSizes []int64) *Half {
	half := &Half{ID: id, After: after, System: system, BlockSizes: append([]int64{}, blockSizes...), Resolution: 1}
	if half.IsWindows() {
		half.Resolution, half.NoModes = 100, true
	}
	slices.Sort(half.BlockSizes)
	half.BlockSizes = slices.Compact(half.BlockSizes)
	return half
}

// StillUnseen gives what isn't seen of a device over the wire and on its disks together, rising. What Syncthing's configuration says may have been told
// with the disks or asked, and whether it is idle.
func (h *Head) StillUnseen() []string {
	unseen := []string{}
	if !h.IsAsked() {
		unseen = append(unseen, UnseenKind)
	}
	if h.Half.NoModes {
		unseen = append(unseen, UnseenPermissions)
	}
	if !h.IsAsked() {
		unseen = append(unseen, UnseenScans)
	}
	return unseen
}

// isLookID says whether this is an id that is drawn at random.
func isLookID(id string) bool {
	data, err := hex.DecodeString(id)
	return err == nil && len(data) == bytesOfLook && id == strings.ToLower(id)
}

// checkHalfOfWire says why the mark of the other half is none. Where a device's disks are in a part of their own, the observer asks for no bytes.
func checkHalfOfWire(head *Head) error {
	switch {
	case head.Wire.Half == "":
		return nil
	case !isLookID(head.Wire.Half):
		return errors.New("the part's half of the disks has an id that is none")
	case !head.IsOfRecords():
		return errors.New("the part has bytes that were asked for over the wire, and says that its disks are in another part")
	}
	return nil
}

// checkHalfHead says why the head of a part of disks alone is none: it knows of no index.
func checkHalfHead(head *Head) error {
	half := head.Half
	switch {
	case head.Look != nil || head.Wire != nil || head.Index != nil || head.Newer != nil || head.ToRepair || head.Runs != "" || head.Others != nil:
		return errors.New("the part is of disks alone, and says what an index or Syncthing says")
	case !isLookID(half.ID) || !isLookID(half.After):
		return errors.New("the part is of disks alone, and the id of its walk or that of the look before it is none")
	case half.System == "" || half.NoModes != half.IsWindows() || half.Resolution < 1 || half.Resolution > 1e9 || half.IsWindows() != (half.Resolution == 100):
		return fmt.Errorf("the part is of disks alone, and what it says of its system %q isn't what this program knows of", half.System)
	case len(head.Folders) == 0:
		return errors.New("the part is of disks alone, and has no folder")
	}
	last := int64(0)
	for _, size := range half.BlockSizes {
		if size <= last || !bep.IsBlockSize(size) {
			return fmt.Errorf("the part is of disks alone, and %d is no size of blocks, or not in its place", size)
		}
		last = size
	}
	return nil
}

// checkHalfFolder says why a folder of such a part is none. What is configured of it is told as a whole, or not at all.
func checkHalfFolder(folder *Folder) error {
	isBare := folder.Label == "" && folder.IndexID == 0 && folder.Max == 0 && len(folder.Sharing) == 0 && len(folder.Views) == 0 && folder.Indexed == 0 &&
		!folder.Paused && folder.Writers == nil
	isConfigured := folder.Kind != "" || folder.IgnoresPermissions || folder.TimeWindow != 0 || folder.ScansAttributes || folder.Rest != nil || folder.Options != nil || folder.PausedDevices != nil
	switch {
	case !isBare || folder.Directory == "":
		return errors.New("more is told of it than its directory and its configuration say, or less")
	case folder.Ignores == nil || len(folder.Ignores.Lines) > mostIgnoreLines:
		return fmt.Errorf("its .stignore isn't told, or has over %d lines", mostIgnoreLines)
	case !isConfigured:
		return nil
	case folder.Rest == nil || folder.Options == nil || folder.TimeWindow < 0 || folder.TimeWindow > math.MaxInt32:
		return errors.New("what is configured of it is told in part, or has a window for times that is none")
	case !slices.Contains([]string{"send-receive", "send-only", "receive-only"}, folder.Kind):
		return fmt.Errorf("its kind is %q", folder.Kind)
	}
	if err := checkOptions(folder.Options); err != nil {
		return err
	}
	return checkRest(folder.Rest)
}

// TakeConfigured takes what the device's configuration says of the folder, and what its Syncthing does there. Over the wire only some of it shows; what
// shows otherwise is an error.
func (f *Folder) TakeConfigured(from *Folder) error {
	isSeen := f.Rest != nil || f.Kind != "send-receive"
	if isSeen && f.Kind != from.Kind {
		return fmt.Errorf("it is configured as %s, and was seen as %s", from.Kind, f.Kind)
	}
	f.Kind, f.Options, f.TimeWindow, f.ScansAttributes, f.PausedDevices = from.Kind, from.Options, from.TimeWindow, from.ScansAttributes, from.PausedDevices
	f.IgnoresPermissions = f.IgnoresPermissions || from.IgnoresPermissions
	f.Rest = from.Rest.Worse(f.Rest)
	return nil
}

// mostIgnoreLines is how many lines a folder's .stignore may have in a part: more than any person writes. Each name is compared with each of them.
const mostIgnoreLines = 10000

// checkHalfName says what no disk tells of a name.
func checkHalfName(name *Name, half *Half) error {
	switch {
	case name.Own != nil || len(name.Views) > 0 || name.Receiving != "" || name.Waits != nil || name.Differ != nil || name.NotRead:
		return errors.New("more is told of it than a disk says")
	case len(name.Moved) > 0 && !slices.Equal(name.Moved, []string{MovedDisk}):
		return errors.New("something else than its disk moved")
	case name.Disk == nil:
		return nil
	case name.Disk.Stamp != "" || name.Disk.Differ != nil || half.NoModes && name.Disk.Permissions != 0:
		return errors.New("more is told of its disk than that says")
	}
	for _, content := range name.Disk.Contents {
		isDue := content.BlockSize == bep.BlockSize(name.Disk.Size) || slices.Contains(half.BlockSizes, content.BlockSize)
		if !isDue {
			return fmt.Errorf("its file is cut into blocks of %d bytes, and the part isn't", content.BlockSize)
		}
	}
	return nil
}
