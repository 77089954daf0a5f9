package part

import (
	"errors"
	"fmt"
	"io"
	"math"

	"golang.org/x/exp/slices"
	"syncthing-audit/bep"
	"syncthing-audit/limits"
	"syncthing-audit/shell"
)

// checkHead says why a part's head is none.
func checkHead(head *Head) error {
	if err := checkVersionOf(head); err != nil {
		return err
	}
	if err := checkMany(head); err != nil {
		return fmt.Errorf("the part is none: %w", err)
	}
	if err := checkLook(head); err != nil {
		return err
	}
	if err := checkLookID(head.Look, head.Wire != nil); err != nil {
		return err
	}
	if err := checkWire(head); err != nil {
		return err
	}
	if err := head.Names.Check(); err != nil {
		return fmt.Errorf("the part's names are none: %w", err)
	}
	if Number(head.Device) == 0 {
		return fmt.Errorf("the part's device %q is no device id", head.Device)
	}
	for place := range head.Folders {
		folder := &head.Folders[place]
		if place > 0 && head.Folders[place-1].ID >= folder.ID {
			return fmt.Errorf("the part's folder %q isn't in its place", folder.ID)
		}
		check := func() error { return checkFolder(folder, head.IsOverWire()) }
		if head.Half != nil {
			check = func() error { return checkHalfFolder(folder) }
		}
		if err := check(); err != nil {
			return fmt.Errorf("the part's folder %q: %w", folder.ID, err)
		}
	}
	return checkOthers(head)
}

// checkOthers says why the folders that a part hasn't are none.
func checkOthers(head *Head) error {
	for place, other := range head.Others {
		if head.Folder(other.ID) != nil || place > 0 && head.Others[place-1].ID >= other.ID {
			return fmt.Errorf("the part says that it hasn't the folder %q, which isn't in its place", other.ID)
		}
		for _, device := range other.Devices {
			if Number(device) == 0 {
				return fmt.Errorf("the part says that folder %q is shared with %q, which is no device id", other.ID, device)
			}
		}
	}
	return nil
}

// checkFolder says why a folder of a head is none.
func checkFolder(folder *Folder, isOverWire bool) error {
	switch folder.Kind {
	case "send-receive", "send-only", "receive-only", KindEncrypted:
	default:
		return fmt.Errorf("its kind is %q", folder.Kind)
	}
	if folder.IndexID == 0 || folder.Max < 0 || folder.Indexed < 0 {
		return errors.New("its index has no id, or a greatest sequence or a count below 0")
	}
	if folder.TimeWindow < 0 || folder.TimeWindow > math.MaxInt32 {
		return errors.New("its window for times is none")
	}
	if folder.Marker != "" && limits.CheckName(folder.Marker) != nil {
		return fmt.Errorf("its marker is %q", folder.Marker)
	}
	if isOverWire && (folder.Rest == nil) != (folder.Options == nil) {
		return errors.New("what Syncthing itself was asked of it is told in part")
	}
	if err := checkRest(folder.Rest); err != nil {
		return err
	}
	if err := checkOptions(folder.Options); err != nil {
		return err
	}
	seen := map[string]bool{}
	for _, of := range folder.Views {
		if Number(of.Device) == 0 || seen[of.Device] || of.Max < 0 || of.Heard < 0 || of.Heard != 0 && !isOverWire {
			return fmt.Errorf("its view of %q is none", of.Device)
		}
		seen[of.Device] = true
	}
	for _, other := range folder.Sharing {
		if Number(other.Device) == 0 {
			return fmt.Errorf("it is shared with %q, which is no device id", other.Device)
		}
	}
	return nil
}

// rules are what the lines of a part keep to, one after another.
type rules struct {
	head  *Head
	begun int     // folders
	in    *Folder // the folder whose names these are, if any
	last  Bytes
	names int64
	ended bool
}

// take says why a line isn't one that may come now.
func (r *rules) take(line Line) error {
	count := 0
	for _, is := range []bool{line.Begin != nil, line.Name != nil, line.End != nil} {
		if is {
			count++
		}
	}
	switch {
	case count != 1:
		return errors.New("it is no begin, name or end")
	case r.ended:
		return errors.New("it stands behind the end")
	case line.Begin != nil:
		return r.begin(line.Begin)
	case r.in == nil:
		return errors.New("no folder has begun")
	case line.End != nil:
		return r.finish(line.End)
	}
	if r.names > 0 && line.Name.Name <= r.last {
		return fmt.Errorf("the name %s isn't in its place", shell.Path(string(line.Name.Name)))
	}
	r.last = line.Name.Name
	r.names++
	if err := checkStanding(line.Name, r.head); err != nil {
		return err
	}
	if err := checkWireName(line.Name, r.head.Wire, r.head.IsOfRecords()); err != nil {
		return fmt.Errorf("%s: %w", shell.Path(string(line.Name.Name)), err)
	}
	if r.head.Half != nil {
		if err := checkHalfName(line.Name, r.head.Half); err != nil {
			return fmt.Errorf("%s: %w", shell.Path(string(line.Name.Name)), err)
		}
	}
	return checkName(line.Name, r.in, r.head.hasBytes())
}

// begin begins a folder: the next one of the head.
func (r *rules) begin(line *Begin) error {
	if r.in != nil || r.begun == len(r.head.Folders) || r.head.Folders[r.begun].ID != line.Folder {
		return fmt.Errorf("folder %q isn't in its place", line.Folder)
	}
	r.in, r.names, r.last = &r.head.Folders[r.begun], 0, ""
	r.begun++
	return nil
}

// finish ends a folder.
func (r *rules) finish(line *End) error {
	if line.Folder != r.in.ID || line.Names != r.names {
		return fmt.Errorf("folder %q ends with %d names, and %d stand here", line.Folder, line.Names, r.names)
	}
	if line.Last != (r.begun == len(r.head.Folders)) {
		return fmt.Errorf("folder %q isn't in its place", line.Folder)
	}
	if r.head.Half != nil && (line.Max != 0 || line.ToIgnore != 0) {
		return fmt.Errorf("folder %q ends with what an index says, and the part is of disks alone", line.Folder)
	}
	for _, count := range []*Count{line.Temporary, line.Linked, {Names: line.ToIgnore}} {
		if count != nil && (count.Names < 0 || count.Bytes < 0) {
			return fmt.Errorf("folder %q ends with a count of names below 0", line.Folder)
		}
	}
	if err := line.Deletable.check(); err != nil {
		return fmt.Errorf("folder %q: %w", line.Folder, err)
	}
	r.in = nil
	r.ended = line.Last
	return nil
}

// end says whether a part may end here, by io.EOF.
func (r *rules) end() error {
	if r.in != nil || r.begun < len(r.head.Folders) {
		return errMiddle
	}
	return io.EOF
}

// checkName says why a name's line is none.
func checkName(name *Name, in *Folder, hasBytes bool) error {
	if len(name.Out) == 0 && len(name.Moved) == 0 {
		if err := limits.CheckName(string(name.Name)); err != nil {
			return fmt.Errorf("%s: %w", shell.Path(string(name.Name)), err)
		}
	}
	if name.Own != nil {
		if err := checkRecord(name.Own, in.Max); err != nil {
			return fmt.Errorf("the own record of %s: %w", shell.Path(string(name.Name)), err)
		}
	}
	last := -1
	for place := range name.Views {
		seen := &name.Views[place]
		if seen.View <= last || seen.View >= len(in.Views) {
			return fmt.Errorf("the views of %s aren't in their places", shell.Path(string(name.Name)))
		}
		last = seen.View
		if err := checkSeen(seen, in.Views[seen.View].Max); err != nil {
			return fmt.Errorf("a view of %s: %w", shell.Path(string(name.Name)), err)
		}
	}
	for _, out := range name.Out {
		if !IsKind(out.Kind) && out.Kind != Damaged || out.Why == "" || out.Bytes < 0 {
			return fmt.Errorf("%s is left out as %q", shell.Path(string(name.Name)), out.Kind)
		}
	}
	if name.Disk == nil {
		return nil
	}
	err := checkNode(name.Disk, len(name.Out) > 0, hasBytes)
	if err == nil && name.Disk.Differ != nil {
		err = checkDiffer(name)
	}
	if err != nil {
		return fmt.Errorf("what stands on the disk at %s: %w", shell.Path(string(name.Name)), err)
	}
	return nil
}

// checkSequence says why a sequence is none of an index or view.
func checkSequence(sequence, greatest int64) error {
	if sequence < 1 || sequence > greatest {
		return fmt.Errorf("its sequence %d isn't 1 to %d", sequence, greatest)
	}
	return nil
}

// checkSeen says why a record in a view is none. The own one is checked by itself.
func checkSeen(seen *Seen, greatest int64) error {
	if seen.Same != 0 {
		return checkSequence(seen.Same, greatest)
	}
	return checkRecord(seen.Record, greatest)
}

// checkRecord says why a record is none.
func checkRecord(record *Record, greatest int64) error {
	if err := checkSequence(record.Sequence, greatest); err != nil {
		return err
	}
	switch {
	case !IsType(record.Type):
		return fmt.Errorf("its type is %d", record.Type)
	case (record.Content != nil) != (isFile(record.Type) && !record.Deleted):
		return errors.New("it has a content and is no file, or the other way round")
	case record.Type == symlink && !record.Deleted && limits.CheckTarget(record.Target) != nil:
		return limits.CheckTarget(record.Target)
	case record.Target != "" && (record.Type != symlink || record.Deleted):
		return errors.New("it has a target and is no symlink")
	case record.ModifiedNs < 0 || record.ModifiedNs > 999999999:
		return errors.New("its nanoseconds are over 999999999")
	case record.ModifiedBy == 0:
		return errors.New("it doesn't say which device changed it")
	case record.Content != nil && !record.Content.isOne():
		return errors.New("its content is none")
	}
	if err := checkVersion(record.Local); err != nil {
		return err
	}
	return checkVersion(record.Version)
}

// checkVersion says why a version is none.
func checkVersion(counters Version) error {
	if len(counters) > limits.MostCounters {
		return fmt.Errorf("its version has over %d counters", limits.MostCounters)
	}
	for place, counter := range counters {
		if counter[0] == 0 || counter[1] == 0 || counter[1] > math.MaxInt64 || place > 0 && counters[place-1][0] >= counter[0] {
			return errors.New("its version is none")
		}
	}
	return nil
}

// checkNode says why a node is none; one that is left out may have no content.
func checkNode(node *Node, isOut, hasBytes bool) error {
	switch {
	case !IsType(node.Type):
		return fmt.Errorf("its type is %d", node.Type)
	case node.ModifiedNs < 0 || node.ModifiedNs > 999999999 || node.Size < 0 || node.Unread < 0 || node.Unread > node.Size:
		return errors.New("its time or size is none")
	case node.Link < 0 || node.Link > 0 && !isFile(node.Type):
		return errors.New("it has several names and is no file")
	case node.Type == symlink && !isOut && limits.CheckTarget(node.Target) != nil:
		return limits.CheckTarget(node.Target)
	case node.Target != "" && node.Type != symlink:
		return errors.New("it has a target and is no symlink")
	case (len(node.Contents) > 0) != (isFile(node.Type) && hasBytes) && !isOut:
		return errors.New("it has a content and is no file, or the other way round")
	}
	for _, content := range node.Contents {
		if !content.isOne() || content.Size != node.Size {
			return errors.New("its content is none")
		}
	}
	return nil
}

// checkDiffer says what is wrong with the blocks of a name that differ. They are blocks of its file or of its own record.
// The list has all of them, or is as long as a list may be.
func checkDiffer(name *Name) error {
	if name.Own == nil || name.Own.Content == nil || len(name.Disk.Contents) == 0 {
		return errors.New("its blocks differ, and there is no file with a record")
	}
	most := CountOfBlocks(name.Own.Content.Size, name.Own.Content.BlockSize)
	if found := CountOfBlocks(name.Disk.Size, name.Own.Content.BlockSize); found > most {
		most = found
	}
	return checkRanges(name.Disk.Differ, most)
}

// checkRanges says what is wrong with a list of blocks that differ, of so many.
func checkRanges(differ *Differ, most int64) error {
	last := int64(-1)
	for _, next := range differ.Ranges {
		if next[0] <= last || next[1] < next[0] || next[1] >= most {
			return errors.New("its blocks that differ aren't in their places")
		}
		last = next[1]
	}
	left := differ.Unlisted()
	if len(differ.Ranges) == 0 || len(differ.Ranges) > MostRanges || left < 0 || differ.Count > most || left > 0 && len(differ.Ranges) < MostRanges {
		return fmt.Errorf("%d of its blocks differ, and the list of them is another one", differ.Count)
	}
	return nil
}

// isOne says whether this is a content.
func (c *Content) isOne() bool {
	return c.Size >= 0 && c.BlockSize >= bep.MinBlockSize && c.BlockSize <= math.MaxInt32
}

const symlink = bep.Symlink

func isFile(kind int) bool { return kind == bep.File }

// IsType says whether a document has this type.
func IsType(kind int) bool {
	return isFile(kind) || kind == bep.Directory || kind == symlink
}

// IsKind says whether this is a kind of what is left out.
func IsKind(word string) bool {
	return slices.Contains(Kinds, word)
}
