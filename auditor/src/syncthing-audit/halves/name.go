package halves

import (
	"fmt"
	"time"

	"syncthing-audit/bep"
	"syncthing-audit/part"
)

// byPatterns says of a name that .stignore ignores that it does, or of a new one that nobody knows whether it does. What the observer couldn't know of
// an invalid record is known then.
func (s *Stream) byPatterns(from *part.Name, isIndexed bool) *part.Name {
	name, own := string(from.Name), from.Own
	switch {
	case s.patterns == nil && !isIndexed && len(from.Moved) == 0:
		from.Out = append(from.Out, part.LeftOut{Kind: part.Unknown, Why: "no scan has taken it, and it isn't known whether .stignore ignores it: " + s.unknown,
			Bytes: sizeOf(from)})
	case s.patterns == nil:
	case s.isIgnored(name, own), s.patterns.IsIgnored(name) && from.Disk == nil && len(from.Moved) == 0: // of the latter the walk doesn't tell what stands there
		s.told[s.hashOf(name)] = isIndexed
		return &part.Name{Name: from.Name, Own: own, Disk: from.Disk, Out: ignored(from)}
	case s.patterns.IsIgnored(name):
		s.toIgnore.TakeDirectory(name)
	case own != nil && !own.Deleted && from.Disk != nil:
		s.toIgnore.TakeOther(name)
	}
	return from
}

// isIgnored says whether .stignore keeps a name out of the folder, as it does at a device whose own index is read (gather).
func (s *Stream) isIgnored(name string, own *part.Record) bool {
	isTaken := own != nil && !own.Deleted && own.Type == bep.Directory && s.patterns.TakesIgnored()
	return s.patterns.IsIgnored(name) && !isTaken
}

// IsIgnored says whether the .stignore of the folder whose names these are keeps a name out that neither the index nor the disk has.
// It is told under its name then, since another device's index has it.
func (s *Stream) IsIgnored(name string) bool {
	is := s.patterns != nil && s.isIgnored(name, nil)
	if is {
		s.told[s.hashOf(name)] = true
	}
	return is
}

// hashOf gives what stands for a name in this folder.
func (s *Stream) hashOf(name string) part.Bytes {
	return part.HiddenName(s.head.Folders[s.folder].ID, name).Bytes()
}

// ignored gives why a name that is ignored is left out: for that alone, and for what else is wrong with its record.
func ignored(name *part.Name) []part.LeftOut {
	left := []part.LeftOut{}
	for _, out := range name.Out {
		if out.Kind != part.Unknown && out.Kind != part.Ignored {
			left = append(left, out)
		}
	}
	return append(left, part.LeftOut{Kind: part.Ignored, Why: part.WhyIgnored, Bytes: sizeOf(name)})
}

// sizeOf gives the bytes of a name's file on the disk, or as it is recorded.
func sizeOf(name *part.Name) int64 {
	switch {
	case name.Disk != nil:
		return name.Disk.Size
	case name.Own != nil && name.Own.Content != nil:
		return name.Own.Content.Size
	}
	return 0
}

// fit has what stands on the disk say what it says to Syncthing there: a time that the disk can't keep to the nanosecond, and modes that the system
// hasn't. The file's content by the blocks of its record comes first.
func (s *Stream) fit(name *part.Name) {
	node, own, half := *name.Disk, name.Own, s.head.Half
	name.Disk = &node
	if half.NoModes && own != nil && own.Permissions != nil {
		node.Permissions = *own.Permissions
	}
	if own == nil || own.Content == nil || len(node.Contents) == 0 {
		return
	}
	if node.Size == own.Content.Size && isCutTo(own, &node, half.Resolution) {
		name.TakeTime()
	}
	node.Contents = append([]part.Content{}, node.Contents...)
	for place, content := range node.Contents {
		if content.BlockSize == own.Content.BlockSize {
			node.Contents[0], node.Contents[place] = node.Contents[place], node.Contents[0]
			return
		}
	}
	blocks := part.CountOfBlocks(own.Content.Size, own.Content.BlockSize)
	if node.Size == own.Content.Size && (blocks > 1 || node.Size > node.Contents[0].BlockSize) {
		name.Out = append(name.Out, part.LeftOut{Kind: part.Unknown, Bytes: node.Size, Why: fmt.Sprintf("its record has blocks of %d bytes, and the walk of the disks "+
			"cut it into others: have that made anew with --block-size %d", own.Content.BlockSize, own.Content.BlockSize)})
	}
}

// isCutTo says whether a file's time on the disk is the recorded one, as far as a disk that counts so many nanoseconds at once can keep that.
func isCutTo(own *part.Record, node *part.Node, resolution int64) bool {
	recorded, found := time.Unix(own.ModifiedS, int64(own.ModifiedNs)), time.Unix(node.ModifiedS, int64(node.ModifiedNs))
	return recorded.Truncate(time.Duration(resolution)).Equal(found)
}
