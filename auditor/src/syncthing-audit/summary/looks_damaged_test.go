package summary

import (
	"crypto/sha256"
	"fmt"
	"strings"
	"testing"

	"syncthing-audit/finding"
	"syncthing-audit/part"
)

// emptied has no bytes on the disk any more.
func emptied(at *part.Name) {
	rotten(at)
	at.Disk.Size = 0
	at.Disk.Differ.First.Found = nil
}

// resized has bytes of another size on the disk.
func resized(at *part.Name) {
	rotten(at)
	at.Disk.Size = 1000
}

// grown has more bytes on the disk than were recorded.
func grown(at *part.Name) {
	rotten(at)
	at.Disk.Size = 400000
}

// zeroed has zeros in place of its last block, which is shorter than the others.
func zeroed(at *part.Name) {
	rotten(at)
	zeros := part.Hash(sha256.Sum256(make([]byte, 300000-2*131072)))
	at.Disk.Differ.First.Found = &zeros
}

// zerosOf gives the hash of a block of so many zeros, and that of the content of a file of zeros.
func zerosOf(size int64) (last, all part.Hash) {
	const block = 131072
	sum := sha256.New()
	for left := size; left > 0; left -= block {
		length := left
		if length > block {
			length = block
		}
		last = sha256.Sum256(make([]byte, length))
		sum.Write(last[:])
	}
	return last, *(*part.Hash)(sum.Sum(nil))
}

// allZeros has zeros in place of all its blocks.
func allZeros(at *part.Name) {
	rotten(at)
	last, all := zerosOf(at.Disk.Size)
	at.Disk.Contents[0].Hash, at.Disk.Differ.First.Found = all, &last
}

// overZeros has other bytes than the zeros that were recorded.
func overZeros(at *part.Name) {
	rotten(at)
	last, all := zerosOf(at.Own.Content.Size)
	at.Own.Content.Hash, at.Disk.Differ.First.Recorded = all, &last
}

// afterwards gives a change that comes with a later time.
func afterwards(change func(*part.Name)) func(*part.Name) {
	return func(at *part.Name) { change(at); touched(at) }
}

// looking are changes of a file on the server's disk; what a person reads of them, and whether they look like damage.
var looking = []struct {
	why       string
	change    func(*part.Name)
	has       string
	isDamaged bool
}{
	{"a byte longer later", afterwards(func(at *part.Name) { at.Disk.Size++; at.Disk.Contents[0].Size++ }), "server: changed on the disk since the last scan: 300,000 bytes recorded, 300,001 bytes on the disk (modified", false},
	{"emptied at the recorded time", emptied, "server: looks damaged: 300.0 kB recorded, 0 bytes on the disk: EMPTY (modified", true},
	{"emptied later", afterwards(emptied), "server: looks damaged: 300.0 kB recorded, 0 bytes on the disk: EMPTY (modified", true},
	{"cut at the recorded time", resized, "server: looks damaged: 300.0 kB recorded, 1.0 kB on the disk: cut short under the recorded time (modified", true},
	{"cut later", afterwards(resized), "server: changed on the disk since the last scan: 300.0 kB recorded, 1.0 kB on the disk (modified", false},
	{"zeros later", afterwards(zeroed), "server: looks damaged: a block of it is all zeros now (modified", true},
	{"zeros at the recorded time", zeroed, "server: other bytes on the disk; size and time are as recorded: a block of it is all zeros now (modified", false},
	{"all zeros later", afterwards(allZeros), "server: looks damaged: all of it is ZEROS (modified", true},
	{"all zeros at the recorded time", allZeros, "server: other bytes on the disk; size and time are as recorded: all of it is ZEROS (modified", false},
	{"an edit of what was zeros", afterwards(overZeros), "server: changed on the disk since the last scan (modified", false},
	{"an edit", afterwards(rotten), "server: changed on the disk since the last scan (modified", false},
}

// What looks like damage is told as that, and comes first.
func TestWhatLooksDamaged(t *testing.T) {
	const first = "first, on server: 1 file looks damaged, not edited. Do what is said of that below before Syncthing starts or scans there"
	for _, row := range looking {
		text := toldOf([]*part.Name{file(1, 1), with(file(1, 1), row.change)}, "StoreDiffers 2", 0, 1, func(*finding.Folder) {})
		if !strings.Contains(text, row.has) {
			t.Errorf("%s: %q isn't in %s", row.why, row.has, text)
		}
		if strings.Contains(text, first) != row.isDamaged {
			t.Errorf("%s: whether %q is told is wrong: %s", row.why, first, text)
		}
	}
}

// More bytes than recorded, under the recorded time, may be what was put back in place of what was emptied and recorded so: nobody is told to
// copy the recorded bytes over them.
func TestMoreBytesThanRecordedAreKept(t *testing.T) {
	text := toldOf([]*part.Name{file(1, 1), with(file(1, 1), grown)}, "StoreDiffers 2", 0, 1, func(*finding.Folder) {})
	for _, has := range []string{"first, on server: 1 file has more bytes than recorded, or other ones than recorded zeros, under the recorded time. Keep a copy outside the folder before Syncthing starts or scans there",
		"server: changed on the disk since the last scan: 300.0 kB recorded, 400.0 kB on the disk: more bytes than recorded under the recorded time: nobody can tell which bytes are the right ones",
		"to do: before Syncthing starts or scans on any of these devices, copy elsewhere what is to stay of what stands on laptop, server"} {
		if !strings.Contains(text, has) {
			t.Errorf("%q isn't in %s", has, text)
		}
	}
	for _, hasnt := range []string{"looks damaged", "copy it from laptop to server"} {
		if strings.Contains(text, hasnt) {
			t.Errorf("%q is in %s", hasnt, text)
		}
	}
}

// Other bytes in place of zeros alone may be the right ones: nobody is told to copy the zeros over them.
func TestOtherBytesThanZerosAreKept(t *testing.T) {
	text := toldOf([]*part.Name{with(file(1, 1), overZeros), file(1, 1)}, "StoreDiffers 1", 0, 1, func(*finding.Folder) {})
	if strings.Contains(text, "to have again") || !strings.Contains(text, "copy elsewhere what is to stay of what stands on laptop, server") {
		t.Error(text)
	}
}

// Many such files are one entry, with the bytes of all; a device that only receives sends none of them.
func TestManyThatLookDamaged(t *testing.T) {
	for kind, isFirst := range map[string]bool{"send-receive": true, receiveOnly: false} {
		text := toldOf([]*part.Name{file(1, 1), with(file(1, 1), emptied)}, "StoreDiffers 2", 0, mostAlone+1, func(folder *finding.Folder) {
			folder.Members[1].About.Kind = kind
			fails(folder, "0", []*part.Name{file(1, 1), with(file(1, 1), afterwards(rotten))}, "StoreDiffers 2")
		})
		const entry = "6 names in docs: 1.8 MB server: looks damaged: 1.8 MB recorded, 0 bytes on the disk: EMPTY the first: a0"
		if !strings.Contains(text, entry) || strings.Contains(text, "first, on server: 6 files look damaged") != isFirst {
			t.Errorf("%s: %s", kind, text)
		}
		if isFirst && strings.Index(text, entry) > strings.Index(text, "0 (in docs") {
			t.Errorf("an edit comes before what is damaged: %s", text)
		}
	}
}

// What is missing on one device and deleted on the others is no loss: there is nothing to copy, and no disk to mount.
func TestMissingAndDeletedElsewhere(t *testing.T) {
	for _, names := range []int{1, mostAlone + 1} {
		answer := answerOf(2, func(folder *finding.Folder) {
			for next := 0; next < names; next++ {
				fails(folder, fmt.Sprint("a", next), []*part.Name{with(with(file(2, 2), again), absent), with(file(1, 1), absent)}, "RecordDiffers 2", "StoreDiffers 2")
			}
		})
		foretellAll(answer)
		text := printed(answer)
		if !strings.Contains(text, "to do: nothing: let Syncthing run") || strings.Contains(text, "mounted") || strings.Contains(text, "copy") || strings.Contains(text, "first, on") {
			t.Error(text)
		}
	}
}
