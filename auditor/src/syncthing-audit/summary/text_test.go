package summary

import (
	"fmt"
	"strings"
	"testing"
	"time"

	"syncthing-audit/finding"
	"syncthing-audit/part"
)

const (
	lineOfFolder = "docs (Documents): NOT in step, 1 name is wrong; 1,204 names (4 deleted), 335.2 MB hashed on laptop, server\n"
	lastLine     = "\nnot compared: owners, extended attributes, old versions\n"
)

// textsForAPerson are what a person reads of what was found.
var textsForAPerson = []struct {
	why     string
	devices int
	fill    func(*finding.Folder)
	text    string
}{
	{"all in step", 2, func(*finding.Folder) {},
		"docs (Documents): in step and firm; 1,204 names (4 deleted), 335.2 MB hashed on laptop, server\n" + lastLine},
	{"a file of other bytes", 2, func(folder *finding.Folder) {
		fails(folder, "my budget.txt", []*part.Name{file(1, 1), with(file(1, 1), rotten)}, "StoreDiffers 2")
	}, lineOfFolder + `
'my budget.txt'  (in docs, 300.0 kB)
  server: other bytes on the disk; size and time are as recorded (modified 2020-09-13 12:26:40 UTC)
    block 2 differs (1 of 3 blocks of 128 KiB; the first is block 0)
    the first of them: SHA-256 abcd0000.. recorded, 12000000.. on the disk
  as recorded on: laptop
  if nothing is done: it isn't known what happens: nothing is foretold of it.
  to do: before Syncthing starts or scans on any of these devices, copy elsewhere what is to stay of
         what stands on laptop, server.
  to do: to have again what server recorded, copy it from laptop to server with its time alone, into
         the file that stands there (cp --preserve=timestamps, or rsync --inplace --times
         --ignore-times) while Syncthing is stopped there.
` + lastLine},
	{"a file of other bytes where scans look at attributes", 2, func(folder *finding.Folder) {
		folder.Members[1].About.ScansAttributes = true
		fails(folder, "a", []*part.Name{file(1, 1), with(file(1, 1), rotten)}, "StoreDiffers 2")
	}, lineOfFolder + `
a  (in docs, 300.0 kB)
  server: other bytes on the disk; size and time are as recorded (modified 2020-09-13 12:26:40 UTC)
    block 2 differs (1 of 3 blocks of 128 KiB; the first is block 0)
    the first of them: SHA-256 abcd0000.. recorded, 12000000.. on the disk
  as recorded on: laptop
  if nothing is done: it isn't known what happens: nothing is foretold of it.
  to do: before Syncthing starts or scans on any of these devices, copy elsewhere what is to stay of
         what stands on laptop, server.
  to do: to have again what server recorded, copy it from laptop to server with its time alone, into
         the file that stands there (cp --preserve=timestamps, or rsync --inplace --times
         --ignore-times) while Syncthing is stopped there.
` + lastLine},
	{"the same other bytes on two devices, under a name like an option", 3, func(folder *finding.Folder) {
		fails(folder, "-rf", []*part.Name{file(1, 1), with(file(1, 1), rotten), with(file(1, 1), rotten)}, "StoreDiffers 2", "StoreDiffers 3")
	}, `docs (Documents): NOT in step, 1 name is wrong; 1,204 names (4 deleted), 335.2 MB hashed on laptop, phone, server

./-rf  (in docs, 300.0 kB)
  phone: other bytes on the disk; size and time are as recorded (modified 2020-09-13 12:26:40 UTC)
    block 2 differs (1 of 3 blocks of 128 KiB; the first is block 0)
    the first of them: SHA-256 abcd0000.. recorded, 12000000.. on the disk
  server: other bytes on the disk; size and time are as recorded (modified 2020-09-13 12:26:40 UTC)
    block 2 differs (1 of 3 blocks of 128 KiB; the first is block 0)
    the first of them: SHA-256 abcd0000.. recorded, 12000000.. on the disk
  the same other bytes on: phone, server
  as recorded on: laptop
  if nothing is done: it isn't known what happens: nothing is foretold of it.
  to do: before Syncthing starts or scans on any of these devices, copy elsewhere what is to stay of
         what stands on laptop, phone, server.
  to do: to have again what phone recorded, copy it from laptop to phone with its time alone, into
         the file that stands there (cp --preserve=timestamps, or rsync --inplace --times
         --ignore-times) while Syncthing is stopped there.
  to do: to have again what server recorded, copy it from laptop to server with its time alone, into
         the file that stands there (cp --preserve=timestamps, or rsync --inplace --times
         --ignore-times) while Syncthing is stopped there.
` + lastLine},
	{"a symlink, whose record has no time, that a device lacks", 2, func(folder *finding.Folder) {
		link := &part.Name{Own: &part.Record{Type: 4, Target: "a", ModifiedBy: 1, Version: [][2]uint64{{1, 1}}, Sequence: 1}, Disk: &part.Node{Type: 4, Target: "a"}}
		fails(folder, "link", []*part.Name{link, nil}, "RecordMissing 2", "StoreDiffers 2")
	}, lineOfFolder + `
link  (in docs)
  server: behind: doesn't have it yet
  as recorded on: laptop
  if nothing is done: it isn't known what happens: nothing is foretold of it.
  to do: before Syncthing starts or scans on any of these devices, copy elsewhere what is to stay of
         what stands on laptop.
` + lastLine},
	{"a deletion on its way", 2, func(folder *finding.Folder) {
		folder.Deleting = 1
		fails(folder, "a", []*part.Name{gone(), file(1, 1)}, "RecordDiffers 2", "StoreDiffers 2", "ViewAhead 2")
	}, `docs (Documents): NOT in step, 1 name is wrong; 1,204 names (4 deleted, 1 being deleted), 335.2 MB hashed on laptop, server

a  (in docs, 300.0 kB)
  server: behind: hasn't deleted it yet (since 2020-09-13 12:27:40 UTC)
  deleted on: laptop
  if nothing is done: it isn't known what happens: nothing is foretold of it.
  to do: before Syncthing starts or scans on any of these devices, copy elsewhere what is to stay of
         what stands on server.
` + lastLine},
	{"a missing file", 2, func(folder *finding.Folder) {
		fails(folder, "a", []*part.Name{file(1, 1), with(file(1, 1), func(at *part.Name) { at.Disk = nil })}, "StoreDiffers 2")
	}, lineOfFolder + `
first, on server: see that the disk of docs (Documents) is mounted before Syncthing starts or scans there: 1 of 1,200 names is missing

a  (in docs, 300.0 kB)
  server: missing on the disk
  as recorded on: laptop
  if nothing is done: it isn't known what happens: nothing is foretold of it.
  to do: before Syncthing starts or scans on any of these devices, copy elsewhere what is to stay of
         what stands on laptop.
  to do: to have again what server recorded, copy it from laptop to server as it is (cp -a, or rsync
         -aIX, as the user who runs Syncthing there), with the directories above that aren't there,
         while Syncthing is stopped there.
` + lastLine},
	{"a device that took one of two changes, and lacks the other one", 2, func(folder *finding.Folder) {
		fails(folder, "a", []*part.Name{file(1, 1), with(file(1, 2), func(at *part.Name) { at.Own.Version = [][2]uint64{{2, 1}} })}, "RecordDiffers 2",
			"StoreDiffers 2")
	}, lineOfFolder + `
a  (in docs, 300.0 kB)
  server: in conflict: has one change of it, and lacks another
  as recorded on: laptop
  if nothing is done: it isn't known what happens: nothing is foretold of it.
  to do: before Syncthing starts or scans on any of these devices, copy elsewhere what is to stay of
         what stands on laptop, server.
` + lastLine},
	{"a device that is behind, and what others still see of it", 3, func(folder *finding.Folder) {
		old := with(file(1, 2), func(at *part.Name) { at.Own.ModifiedS = started - 60; at.Disk.ModifiedS = started - 60 })
		fails(folder, "a", []*part.Name{file(2, 1), old, file(2, 1)}, "RecordDiffers 2", "StoreDiffers 2", "ViewAhead 2", "ViewAhead 3")
	}, `docs (Documents): NOT in step, 1 name is wrong; 1,204 names (4 deleted), 335.2 MB hashed on laptop, phone, server

a  (in docs, 300.0 kB)
  server: behind: hasn't taken what is newest (modified 2020-09-13 12:26:40 UTC)
  as recorded on: laptop, phone
  if nothing is done: it isn't known what happens: nothing is foretold of it.
  to do: before Syncthing starts or scans on any of these devices, copy elsewhere what is to stay of
         what stands on laptop, server.
` + lastLine},
	{"a device that is behind with other bytes under the time of its own", 2, func(folder *finding.Folder) {
		fails(folder, "a", []*part.Name{file(2, 1), file(1, 2)}, "RecordDiffers 2", "StoreDiffers 2")
	}, lineOfFolder + `
a  (in docs, 300.0 kB)
  server: behind: hasn't taken what is newest: other bytes under the time of its own: rot that a scan took, or an edit that kept the time (modified 2020-09-13 12:26:40 UTC)
  as recorded on: laptop
  if nothing is done: it isn't known what happens: nothing is foretold of it.
  to do: before Syncthing starts or scans on any of these devices, copy elsewhere what is to stay of
         what stands on laptop, server.
  to do: to have again what server has now: put the saved copy back once all devices are idle, and
         'touch' it.
` + lastLine},
	{"a device that is behind as a whole", 2, func(folder *finding.Folder) {
		for next := 0; next < 7; next++ {
			row := []*part.Name{file(1, 1), nil}
			if next == 6 {
				row = nil
			}
			fails(folder, fmt.Sprint("photo ", next), row, "RecordMissing 2", "StoreDiffers 2")
		}
	}, `docs (Documents): NOT in step, 7 names are wrong; 1,204 names (4 deleted), 335.2 MB hashed on laptop, server

first, on server: do what the steps and the entries below say to do before Syncthing starts or scans there. As it starts, it scans all folders

7 names in docs: 1.8 MB, without 1 name whose details weren't kept
  server: behind: doesn't have them yet
  the first: 'photo 0' 'photo 1' 'photo 2' 'photo 3' 'photo 4', and 2 more (--lines has all)
  as recorded on: laptop
  if nothing is done: it isn't known what happens: nothing is foretold of it.
  to do: before Syncthing starts or scans on any of these devices, copy elsewhere what is to stay of
         what stands on laptop.
` + lastLine},
	{"a file that was added on a receive-only device", 2, func(folder *finding.Folder) {
		folder.Members[1].About.Kind = "receive-only"
		unwon(folder, "added", 1, finding.LocalChange, file(1, 1))
	}, lineOfFolder + `
added  (in docs, 300.0 kB)
  server: added on this receive-only device; no other has it (modified 2020-09-13 12:26:40 UTC)
  if nothing is done: it isn't known what happens: nothing is foretold of it.
  to do: before Syncthing starts or scans on any of these devices, copy elsewhere what is to stay of
         what stands on server.
` + lastLine},
	{"a file that no scan has seen", 2, func(folder *finding.Folder) {
		unwon(folder, "new", 0, finding.Unscanned, with(file(1, 1), func(at *part.Name) { at.Own = nil; at.Disk.ModifiedS = later }))
	}, lineOfFolder + `
new  (in docs, 300.0 kB)
  laptop: on the disk, and no scan has seen it (modified 2020-09-13 12:27:40 UTC)
  if nothing is done: it isn't known what happens: nothing is foretold of it.
  to do: before Syncthing starts or scans on any of these devices, copy elsewhere what is to stay of
         what stands on laptop.
` + lastLine},
	{"other bytes with another mode", 2, func(folder *finding.Folder) {
		fails(folder, "a", []*part.Name{file(1, 1), with(file(1, 1), rotten)}, "StoreDiffers 2")
		folder.Permissions.Add(finding.Permissions{Name: "a", At: []finding.Bits{{Has: true, Index: 0o644}, {Has: true, Index: 0o644, OnDisk: true, Disk: 0o600}}})
	}, lineOfFolder + `
a  (in docs, 300.0 kB)
  server: other bytes on the disk; size and time are as recorded (modified 2020-09-13 12:26:40 UTC)
    block 2 differs (1 of 3 blocks of 128 KiB; the first is block 0)
    the first of them: SHA-256 abcd0000.. recorded, 12000000.. on the disk
  permissions differ (they don't count for the verdict): laptop 0644; server 0644 recorded, 0600 on the disk
  as recorded on: laptop
  if nothing is done: it isn't known what happens: nothing is foretold of it.
  to do: before Syncthing starts or scans on any of these devices, copy elsewhere what is to stay of
         what stands on laptop, server.
  to do: to have again what server recorded, copy it from laptop to server with its time alone, into
         the file that stands there (cp --preserve=timestamps, or rsync --inplace --times
         --ignore-times) while Syncthing is stopped there.
` + lastLine},
	{"permissions that differ", 2, func(folder *finding.Folder) {
		folder.Permissions.Add(finding.Permissions{Name: "a", At: []finding.Bits{{Has: true, Index: 0o644, OnDisk: true, Disk: 0o600}, {Has: true, Index: 0o644}}})
	}, `docs (Documents): in step and firm; 1,204 names (4 deleted), 335.2 MB hashed on laptop, server

a  (in docs)
  permissions differ (they don't count for the verdict): laptop 0644 recorded, 0600 on the disk; server 0644
  to do: 'chmod' it to the mode that is right on laptop, server, before Syncthing scans there; or
         choose 'Ignore Permissions' for the folder.
` + lastLine},
	{"permissions that differ everywhere", 2, func(folder *finding.Folder) {
		for _, name := range []string{"1", "2", "3", "4", "5", "6"} {
			folder.Permissions.Add(finding.Permissions{Name: name, At: []finding.Bits{{Has: true, Index: 0o644}, {Has: true, Index: 0o600}}})
		}
	}, `docs (Documents): in step and firm; 1,204 names (4 deleted), 335.2 MB hashed on laptop, server

6 names in docs: 0 bytes, without 6 names whose details weren't kept
  permissions differ (they don't count for the verdict): laptop 0644; server 0600
  the first: 1 2 3 4 5, and 1 more (--lines has all)
  to do: 'chmod' them to the mode that is right on laptop, server, before Syncthing scans there; or
         choose 'Ignore Permissions' for the folder.
` + lastLine},
	{"what was left out, and which names weren't asked for", 2, func(folder *finding.Folder) {
		folder.LeftOut = []*finding.LeftOut{{Name: "odd\xff", Names: 1, Bytes: 3000000, Why: []finding.Reason{{Device: folder.Members[0].Head.Device, Kind: part.OddName, Why: "its name isn't UTF-8"}}}}
		folder.Outside = finding.Count{Names: 4, Bytes: 7}
		folder.Members[0].Head.Prefix = "a b"
	}, `docs (Documents): in step and firm as far as audited; 1,204 names (4 deleted), 335.2 MB hashed on laptop, server

left out of docs: 1 name, 3.0 MB
  '[not-for-typing:odd\xff]', 3.0 MB: laptop: its name isn't UTF-8
outside docs: 4 names, 7 bytes, which .stignore keeps out on each device that has them
not audited: names that don't begin with 'a b'; no part has them
  to do: make the parts without --names; or say by --names 'a b' that only these are to be audited.
not compared: owners, extended attributes, old versions
not for typing: a name in [not-for-typing:..] has bytes that can't be typed in one way in all shells. It is given for reading, each such byte as \x and two digits. Choose that file in a file manager, or by a pattern, * in place of these bytes, after seeing that it fits that file alone
`},
	{"a conflict copy that lies about", 2, func(folder *finding.Folder) {
		folder.Conflicts = []finding.Conflict{{Name: "a.sync-conflict-20261126-170000-ABCDEF2.txt", Bytes: 1500000}}
	}, `docs (Documents): in step and firm; 1,204 names (4 deleted), 335.2 MB hashed on laptop, server

1 conflict copy in docs, 1.5 MB: compare each with its file, and keep what you want of both
  a.sync-conflict-20261126-170000-ABCDEF2.txt
not compared: owners, extended attributes, old versions
`},
	{"many conflict copies", 2, func(folder *finding.Folder) {
		for next := 0; next <= mostOfList+6; next++ {
			folder.Conflicts = append(folder.Conflicts, finding.Conflict{Name: "a", Bytes: 1})
		}
	}, `docs (Documents): in step and firm; 1,204 names (4 deleted), 335.2 MB hashed on laptop, server

17 conflict copies in docs, 17 bytes: compare each with its file, and keep what you want of both
` + strings.Repeat("  a\n", mostOfList) + `  and 7 more (--json has all)
not compared: owners, extended attributes, old versions
`},
	{"more than is listed", 2, func(folder *finding.Folder) {
		folder.LeftOut = []*finding.LeftOut{{Name: "a", Names: 1, Bytes: 1000, Why: []finding.Reason{{Device: folder.Members[0].Head.Device, Kind: part.Unreadable, Why: "it can't be read"}}}}
		folder.Unlisted.LeftOut = finding.Count{Names: 1234, Bytes: 3000000}
		for next := 0; next <= mostOfList; next++ {
			folder.Conflicts = append(folder.Conflicts, finding.Conflict{Name: "a", Bytes: 1})
		}
		folder.Unlisted.Conflicts = finding.Count{Names: 5, Bytes: 1000}
	}, `docs (Documents): in step and firm as far as audited; 1,204 names (4 deleted), 335.2 MB hashed on laptop, server

16 conflict copies in docs, 1.0 kB: compare each with its file, and keep what you want of both
` + strings.Repeat("  a\n", mostOfList) + `  and 6 more (--json has the first 11)
left out of docs: 1,235 names, 3.0 MB
  a, 1.0 kB: laptop: it can't be read
  and 1,234 names more, 3.0 MB
not compared: owners, extended attributes, old versions
`},
	{"a directory that a device ignores, and a file that can't be read", 2, func(folder *finding.Folder) {
		ignored := []finding.Reason{{Device: folder.Members[0].Head.Device, Kind: part.Ignored, Why: "it knows that another device ignores it"},
			{Device: folder.Members[1].Head.Device, Kind: part.Ignored, Why: "it is ignored there by .stignore"}}
		for next := 0; next < mostLeft+40; next++ {
			folder.LeftOut = append(folder.LeftOut, &finding.LeftOut{Name: "a", Names: 1, Bytes: 1000, Why: ignored})
		}
		folder.LeftOut = append(folder.LeftOut, &finding.LeftOut{Name: "z", Names: 1, Bytes: 5, Why: []finding.Reason{
			{Device: folder.Members[0].Head.Device, Kind: part.Unreadable, Why: "it can't be read"}, {Device: folder.Members[1].Head.Device, Kind: part.Unreadable, Why: "it can't be read"}}})
	}, `docs (Documents): in step and firm as far as audited; 1,204 names (4 deleted), 335.2 MB hashed on laptop, server

left out of docs: 46 names, 45.0 kB
` + strings.Repeat("  a, 1.0 kB: laptop: it knows that another device ignores it; server: it is ignored there by .stignore\n", mostLeft) +
		`  z, 5 bytes: laptop, server: it can't be read
  and 40 names more, 40.0 kB: ignored on laptop, server (--lines has them)
not compared: owners, extended attributes, old versions
`},
	{"one device alone", 1, func(*finding.Folder) {},
		`docs (Documents): in step and firm as far as audited; 1,204 names (4 deleted), 335.2 MB hashed on laptop

alone: docs is audited on one device, so there is nothing to compare it with
not compared: owners, extended attributes, old versions
`},
	{"a folder that is paused, and devices", 3, func(folder *finding.Folder) {
		folder.Members[0].About.Paused, folder.Members[2].About.Paused = true, true
		folder.Members[1].About.PausedDevices, folder.Members[2].About.PausedDevices = []string{laptop, phone}, []string{laptop}
	}, `docs (Documents): in step and firm; 1,204 names (4 deleted), 335.2 MB hashed on laptop, phone, server

paused: folder docs (Documents) on laptop, phone
paused: device laptop on phone, server
paused: device phone on server
not compared: owners, extended attributes, old versions
`},
	{"a device that shares it with nobody", 1, func(folder *finding.Folder) { folder.Own = laptop },
		`docs (Documents): in step and firm; 1,204 names (4 deleted), 335.2 MB hashed on laptop

shared with no device: docs (Documents) on laptop: what stands on the disk was compared with the device's own index alone
not compared: owners, extended attributes, old versions
`},
}

func TestWhatAPersonReads(t *testing.T) {
	for _, row := range textsForAPerson {
		var written strings.Builder
		Of(answerOf(row.devices, row.fill)).Print(&written, time.UTC, time.Time{})
		if written.String() != row.text {
			t.Errorf("%s:\n%s\nnot\n%s", row.why, written.String(), row.text)
		}
	}
}
