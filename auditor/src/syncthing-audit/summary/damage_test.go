package summary

import (
	"strings"
	"testing"
	"time"

	"syncthing-audit/finding"
	"syncthing-audit/part"
)

// lost has a file whose bytes the disk doesn't give.
func lost(at *part.Name) {
	at.Disk.Lost = "read lost: input/output error"
	at.Disk.Contents = []part.Content{{Size: 300000, BlockSize: 131072, Hash: part.Hash{77}}}
}

const (
	unknownOfServer = `  if nothing is done: it isn't known what happens: nothing is foretold of it.
  to do: before Syncthing starts or scans on any of these devices, copy elsewhere what is to stay of
         what stands on `
	damageOfServer = `  to do: see the system's log on server (journalctl -k, smartctl -a): its disk fails there, and may
         soon fail elsewhere. Save what that disk has and no other device has, replace it, and bring
         back what is lost. Don't delete what is damaged, and don't start Syncthing there, before
         that is done.
`
)

// damaged has the second device's disk fail to give a name.
func damaged(folder *finding.Folder, name string, isFile bool) {
	folder.Damaged.Add(finding.Damaged{Name: part.Bytes(name), IsFile: isFile, At: []finding.DamagedAt{{Member: 1, Why: "read " + name + ": input/output error"}}})
}

// textsOfDamage are what a person reads of what a disk fails to give.
var textsOfDamage = []struct {
	why  string
	fill func(*finding.Folder)
	text string
}{
	{"a file", func(folder *finding.Folder) {
		fails(folder, "lost", []*part.Name{file(1, 1), with(file(1, 1), lost)}, "StoreDiffers 2")
		damaged(folder, "lost", true)
	}, `
lost  (in docs, 300.0 kB)
  server: the disk fails to give what it has; it may be lost there (read lost: input/output error)
  as recorded on: laptop
` + unknownOfServer + "laptop, server.\n" + damageOfServer},
	{"a file of other bytes on the other device", func(folder *finding.Folder) {
		fails(folder, "lost", []*part.Name{with(file(1, 1), rotten), with(file(1, 1), lost)}, "StoreDiffers 1", "StoreDiffers 2")
		damaged(folder, "lost", true)
	}, `
lost  (in docs, 300.0 kB)
  laptop: other bytes on the disk; size and time are as recorded (modified 2020-09-13 12:26:40 UTC)
    block 2 differs (1 of 3 blocks of 128 KiB; the first is block 0)
    the first of them: SHA-256 abcd0000.. recorded, 12000000.. on the disk
  server: the disk fails to give what it has; it may be lost there (read lost: input/output error)
  as recorded on: no audited device
`},
	{"one without details", func(folder *finding.Folder) {
		fails(folder, "lost", nil, "StoreDiffers 2")
		damaged(folder, "lost", true)
	}, `
lost  (in docs)
  server: the disk fails to give what it has; it may be lost there (read lost: input/output error)
  as recorded on: laptop
` + unknownOfServer + "laptop, server.\n" + damageOfServer},
	{"a directory", func(folder *finding.Folder) { damaged(folder, "d/", false) }, `
d/  (in docs)
  server: the disk fails to give what it has; it may be lost there (read d/: input/output error)
` + unknownOfServer + "server.\n" + damageOfServer},
	{"a directory on a device that only receives", func(folder *finding.Folder) {
		folder.Members[1].About.Kind = receiveOnly
		damaged(folder, "d/", false)
	}, `
d/  (in docs)
  server: the disk fails to give what it has; it may be lost there (read d/: input/output error)
` + unknownOfServer + "server.\n" + damageOfServer},
}

// What a disk itself fails to give is wrong on that device. Who has the file's bytes is told, and what else is wrong with it.
func TestWhatADiskFailsToGive(t *testing.T) {
	for _, row := range textsOfDamage {
		var written strings.Builder
		summary := Of(answerOf(2, row.fill))
		summary.Print(&written, time.UTC, time.Time{})
		if summary.Verdict != NotInStep || !strings.HasPrefix(written.String(), lineOfFolder+row.text) {
			t.Errorf("%s: %s\n%s", row.why, summary.Verdict, written.String())
		}
	}
}
