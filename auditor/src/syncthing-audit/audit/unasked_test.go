package audit

import (
	"fmt"
	"testing"

	"syncthing-audit/join"
	"syncthing-audit/part"
)

// Of a device's folders, those are told that nobody asked for. One that isn't shared is nobody else's. What is refused or
// left out is told as that.
func TestFoldersNobodyAskedFor(t *testing.T) {
	device := &join.Device{Head: &part.Head{Folders: []part.Folder{{ID: "docs"}, {ID: "refused"}, {ID: "with"}},
		Others: []part.Other{{ID: "alone"}, {ID: "music", Label: "My music", Devices: []string{"A"}}, {ID: "left", Devices: []string{"A"}}}}}
	plan := &join.Plan{Folders: []*join.Folder{{ID: "docs"}}, Refusals: []join.Refusal{{Folder: "refused"}, {Folder: "left"}}}
	if told := fmt.Sprint(unaskedOf(plan, device)); told != "[{music My music false} {with  true}]" {
		t.Error(told)
	}
}
