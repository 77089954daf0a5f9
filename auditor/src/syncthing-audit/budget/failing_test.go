package budget

import (
	"context"
	"errors"
	"fmt"
	"io/fs"
	"os"
	"runtime/debug"
	"strings"
	"testing"

	"syncthing-audit/fixture"
)

// A plan that can't be made, or kept, says so, and leaves neither files nor anything open.
func TestPlansThatFail(t *testing.T) {
	defer debug.SetGCPercent(debug.SetGCPercent(-1)) // the collector closes files of which nobody knows any more
	over, cancel := context.WithCancel(context.Background())
	cancel()
	for why, row := range map[string]struct {
		ctx    context.Context
		change func(c *cluster, room *string)
		err    error // nothing where it is any
	}{
		"no room":   {context.Background(), func(_ *cluster, room *string) { *room += "/none" }, fs.ErrNotExist},
		"no time":   {over, func(*cluster, *string) {}, context.Canceled},
		"an index":  {context.Background(), func(c *cluster, _ *string) { c.indexes[1].Close() }, nil},
		"a history": {context.Background(), func(c *cluster, _ *string) { c.history.Close() }, nil},
	} {
		c, room := newCluster(t, 2), t.TempDir()
		for number := 0; number < 600; number++ { // more than are read ahead
			c.record(fmt.Sprintf("%03d", number), 100, 0, 1)
		}
		isHere := func(path string) bool { return strings.HasPrefix(path, room) }
		into, places := room, []Place{{Folder: "docs", Device: 0, Index: c.indexes[0]}, {Folder: "docs", Device: 1, Index: c.indexes[1]}}
		row.change(c, &into)
		plan, err := Make(row.ctx, c.history, places, Asked{Bytes: 1000, IsFault: func(string, string) bool { return false }, Room: into})
		if plan != nil || err == nil || row.err != nil && !errors.Is(err, row.err) {
			t.Errorf("%s: %v", why, err)
		}
		if left, err := os.ReadDir(room); err != nil || len(left) > 0 || fixture.CountOpened(t, isHere) > 0 {
			t.Errorf("%s: %v is left, or something is open: %v", why, left, err)
		}
	}
	for why, spoil := range map[string]func(c *cluster, plan *Plan){
		"an index":      func(c *cluster, _ *Plan) { c.indexes[0].Close() },
		"a history":     func(c *cluster, _ *Plan) { c.history.Close() },
		"what it chose": func(_ *cluster, plan *Plan) { plan.chosen.Close() },
	} {
		c := newCluster(t, 1)
		c.record("a", 100, 0)
		plan := c.plan(1000)
		spoil(c, plan)
		if err := plan.Keep(c.history, 5, func(string, uint64) bool { return true }); err == nil {
			t.Errorf("%s: a plan is kept", why)
		}
	}
}

// A plan whose time is over while names are counted, or while they are chosen, is none, and leaves nothing.
func TestPlansThatAreStopped(t *testing.T) {
	const names = 600 // more than are read ahead
	c := newCluster(t, 2)
	for number := 0; number < names; number++ {
		c.record(fmt.Sprintf("%03d", number), 100, 0, 1)
	}
	places := []Place{{Folder: "docs", Device: 0, Index: c.indexes[0]}, {Folder: "docs", Device: 1, Index: c.indexes[1]}}
	for _, last := range []int{1, 2, names + 1, names + 2} {
		ctx, stop := context.WithCancel(context.Background())
		room, asked := t.TempDir(), 0
		isFault := func(string, string) bool {
			if asked++; asked == last {
				stop()
			}
			return false
		}
		plan, err := Make(ctx, c.history, places, Asked{Bytes: 1000, IsFault: isFault, Room: room})
		if plan != nil || !errors.Is(err, context.Canceled) || asked < last || asked >= last+names-1 {
			t.Errorf("stopped at %d, asked of %d: %v", last, asked, err)
		}
		if left, err := os.ReadDir(room); err != nil || len(left) > 0 {
			t.Errorf("stopped at %d: %v is left, %v", last, left, err)
		}
	}
}
