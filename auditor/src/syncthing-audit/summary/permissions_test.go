package summary

import (
	"strings"
	"testing"

	"syncthing-audit/finding"
	"syncthing-audit/part"
)

// modesOn records a mode of a name on two devices, of which the second one's disk has another one.
func modesOn(folder *finding.Folder, name string) {
	folder.Permissions.Add(finding.Permissions{Name: name, At: []finding.Bits{{Has: true, Index: 0o644, OnDisk: true, Disk: 0o644}, {Has: true, Index: 0o644, OnDisk: true, Disk: 0o600}}})
}

// Who is to change a mode is told so of names of which the modes alone differ: of others that may change what comes of them.
func TestAModeIsToldAlone(t *testing.T) {
	const told = "to do: 'chmod' it to the mode that is right on laptop, server, before Syncthing scans there; or choose 'Ignore Permissions' for the folder"
	for _, isAlone := range []bool{true, false} {
		text := printed(answerOf(2, func(folder *finding.Folder) {
			modesOn(folder, "a")
			if !isAlone {
				fails(folder, "a", []*part.Name{file(2, 2), file(1, 1)}, "RecordDiffers 2")
			}
		}))
		if strings.Contains(text, told) != isAlone || !strings.Contains(text, "permissions differ (they don't count for the verdict): laptop 0644; server 0644 recorded, 0600 on the disk") {
			t.Error(text)
		}
	}
}

// Names of which the permissions alone differ have entries, too: the folder's line counts them apart.
func TestTheHeadCountsPermissionsApart(t *testing.T) {
	text := printed(answerOf(2, func(folder *finding.Folder) {
		missing(folder, "b", 1)
		folder.Permissions.Add(finding.Permissions{Name: "a", At: []finding.Bits{{Has: true, Index: 0o644, OnDisk: true, Disk: 0o644}, {Has: true, Index: 0o600, OnDisk: true, Disk: 0o600}}})
	}))
	if !strings.Contains(text, "NOT in step, 1 name is wrong, and of 1 more the permissions alone differ; ") {
		t.Error(text)
	}
}
