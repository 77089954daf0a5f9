package device

import (
	"testing"

	"github.com/syncthing/syncthing/lib/protocol"
)

// A view is told where the index has its id or an entry of it, and not where it has neither.
func TestWhichViewsAreTold(t *testing.T) {
	file := hello(func(f *protocol.FileInfo) { f.Sequence = 5 })
	for why, row := range map[string]struct {
		id     protocol.IndexID
		others []protocol.FileInfo
		isTold bool
	}{
		"neither":          {0, nil, false},
		"its id alone":     {7, nil, true},
		"an entry alone":   {0, []protocol.FileInfo{file}, true},
		"its id, an entry": {7, []protocol.FileInfo{file}, true},
	} {
		index := indexInMemory(t, false, nil, row.others)
		index.files.SetIndexID(otherDevice, row.id)
		views, greatest := index.Folder().Views, int64(0)
		if len(row.others) > 0 {
			greatest = 5
		}
		if (len(views) == 1) != row.isTold || len(views) > 1 || row.isTold && (views[0].Device != otherDevice.String() || views[0].IndexID != uint64(row.id) || views[0].Max != greatest) {
			t.Errorf("%s: %+v", why, views)
		}
	}
}
