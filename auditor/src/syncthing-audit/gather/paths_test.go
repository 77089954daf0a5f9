package gather

import (
	"encoding/json"
	"strings"
	"testing"

	"syncthing-audit/part"
)

// What a part tells has no path of its machine: why a name can't be told is said relative to the folder.
func TestPathsAreHidden(t *testing.T) {
	line := &part.Name{Name: "a/b", Disk: &part.Node{Lost: "read /srv/my docs/a/b: input/output error"},
		Out: []part.LeftOut{{Why: "it can't be read: open /srv/my docs/a/b: permission denied"}, {Why: "open /srv/my docs: permission denied"}}}
	line.HidePaths("")
	if !strings.HasPrefix(line.Disk.Lost, "read /srv/") {
		t.Error(line.Disk.Lost)
	}
	line.HidePaths("/srv/my docs/")
	if line.Disk.Lost != "read a/b: input/output error" || line.Out[0].Why != "it can't be read: open a/b: permission denied" || line.Out[1].Why != "open .: permission denied" {
		t.Errorf("%v, %v", line.Disk, line.Out)
	}
	newer := &part.Newer{Path: "/srv/index"}
	options := &part.Options{Versions: &part.Versions{Kind: part.VersionsSimple, Place: "/srv/old"}}
	head := &part.Head{Folders: []part.Folder{{ID: "docs", Path: "/srv/my docs", Options: options}}, Newer: newer}
	hidePaths(head)
	if text, err := json.Marshal(head); err != nil || strings.Contains(string(text), "/srv") || newer.Path == "" || options.Versions.Place == "" {
		t.Errorf("%v: %s, %s", err, text, newer.Path)
	}
}
