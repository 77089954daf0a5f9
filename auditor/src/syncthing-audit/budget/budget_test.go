package budget

import (
	"context"
	"fmt"
	"math/rand"
	"path/filepath"
	"reflect"
	"testing"
	"time"

	"syncthing-audit/history"
	"syncthing-audit/message"
	"syncthing-audit/wire"
)

// fileOf gives a record of a file as it is sent.
func fileOf(name string, size, sequence int64) []byte {
	text := message.AppendText(nil, 1, []byte(name))
	text = message.AppendNumber(text, 3, uint64(size))
	text = message.AppendText(text, 9, message.AppendText(nil, 1, message.AppendNumber(message.AppendNumber(nil, 1, 1), 2, 1)))
	text = message.AppendNumber(message.AppendNumber(text, 10, uint64(sequence)), 12, 1)
	for left := size; left > 0; left -= 128 << 10 {
		block := left
		if block > 128<<10 {
			block = 128 << 10
		}
		text = message.AppendText(text, 16, message.AppendText(message.AppendNumber(nil, 2, uint64(block)), 3, make([]byte, 32)))
	}
	return text
}

// cluster has devices with files, and a history of when these were asked for.
type cluster struct {
	t       *testing.T
	room    string
	history *history.History
	indexes []*wire.Index
	next    int64 // sequence
	sizes   map[string]int64
	faults  map[string]bool
}

func newCluster(t *testing.T, devices int) *cluster {
	c := &cluster{t: t, room: filepath.Join(t.TempDir(), "history"), sizes: map[string]int64{}, faults: map[string]bool{}}
	c.open()
	t.Cleanup(func() { c.history.Close() })
	for device := 0; device < devices; device++ {
		c.indexes = append(c.indexes, wire.NewIndex(uint64(device+1)))
	}
	return c
}

// open opens the history.
func (c *cluster) open() {
	var err error
	if c.history, err = history.Open(c.room); err != nil {
		c.t.Fatal(err)
	}
}

// record has these devices record a file.
func (c *cluster) record(name string, size int64, devices ...int) {
	for _, device := range devices {
		c.next++
		if err := c.indexes[device].Put(fileOf(name, size, c.next)); err != nil {
			c.t.Fatal(err)
		}
	}
	c.sizes[name] = size
}

// plan makes a plan for so many bytes.
func (c *cluster) plan(bytes int64) *Plan {
	places := []Place{}
	for device, index := range c.indexes {
		places = append(places, Place{Folder: "docs", Device: uint64(device), Index: index})
	}
	plan, err := Make(context.Background(), c.history, places, Asked{Bytes: bytes, IsFault: func(_, name string) bool { return c.faults[name] }, Room: c.t.TempDir()})
	if err != nil {
		c.t.Fatal(err)
	}
	c.t.Cleanup(plan.Close)
	return plan
}

// look makes a look at a time, on these devices, and gives the names that it asked for.
func (c *cluster) look(bytes, at int64, is func(device uint64) bool) map[string]bool {
	plan, asked := c.plan(bytes), map[string]bool{}
	for name := range c.sizes {
		has, err := plan.Has("docs", name)
		if err != nil {
			c.t.Fatal(err)
		}
		if has {
			asked[name] = true
		}
	}
	c.history.Close() // nobody has it open while devices are asked
	c.open()
	if err := plan.Keep(c.history, at, func(_ string, device uint64) bool { return is(device) }); err != nil {
		c.t.Fatal(err)
	}
	plan.Close()
	return asked
}

func all(uint64) bool { return true }

func same(got map[string]bool, want ...string) bool {
	for _, name := range want {
		if !got[name] {
			return false
		}
	}
	return len(got) == len(want)
}

// Those are asked for that were asked for longest ago, on all devices together; new and changed ones first. The last one may go over the bytes.
func TestLongestAgo(t *testing.T) {
	c := newCluster(t, 2)
	for _, name := range []string{"a", "b", "c", "d"} {
		c.record(name, 100, 0, 1)
	}
	for at, want := range [][]string{{"a", "b"}, {"c", "d"}, {"a", "b"}, {"c", "d"}} {
		if got := c.look(400, int64(at+1), all); !same(got, want...) {
			t.Errorf("look %d: %v", at, got)
		}
	}
	c.record("new", 100, 1)
	c.record("b", 100, 0) // changed on one device
	if got := c.look(300, 9, all); !same(got, "b", "new") {
		t.Errorf("new and changed: %v", got)
	}
	c.record("large", 5000, 0)
	if got := c.look(150, 10, all); !same(got, "large") {
		t.Errorf("a large one: %v", got)
	}
	if got := c.look(350, 11, all); !same(got, "a", "c") {
		t.Errorf("over the bytes by the last: %v", got)
	}
}

// A device that wasn't reached has its files asked for the next time, and with them those of the others.
func TestADeviceThatWasNotReached(t *testing.T) {
	c := newCluster(t, 2)
	c.record("b", 100, 0, 1)
	c.record("a", 100, 0)
	c.look(1000, 1, func(device uint64) bool { return device == 0 })
	if got := c.look(100, 2, all); !same(got, "b") {
		t.Errorf("%v", got)
	}
	if got := c.look(100, 3, all); !same(got, "a") {
		t.Errorf("%v", got)
	}
}

// What was asked for by a clock that was years ahead has its turn as what was never asked for, and not years later.
func TestAClockThatWasAhead(t *testing.T) {
	c, asked := newCluster(t, 1), map[string]int{}
	for _, name := range []string{"a", "b", "c"} {
		c.record(name, 100, 0)
	}
	for look, at := range []int64{time.Now().AddDate(10, 0, 0).Unix(), 1, 2, 3, 4, 5, 6} {
		for name := range c.look(100, at, all) {
			if look > 0 {
				asked[name]++
			}
		}
	}
	if !reflect.DeepEqual(asked, map[string]int{"a": 2, "b": 2, "c": 2}) {
		t.Error(asked)
	}
}

// What was at fault before is asked for again each time, but with at most half of the bytes: it keeps nothing else from its turn.
func TestFaultsFirst(t *testing.T) {
	c := newCluster(t, 1)
	for at := 0; at < 20; at++ {
		c.record(fmt.Sprintf("file %02d", at), 100, 0)
	}
	c.record("rotten", 100, 0)
	c.record("very large and rotten", 3000, 0)
	c.faults = map[string]bool{"rotten": true, "very large and rotten": true}
	times, count := map[string]int{}, 13
	for at := 0; at < count; at++ {
		for name := range c.look(400, int64(at+1), all) {
			times[name]++
		}
	}
	for name := range c.sizes {
		if times[name] == 0 {
			t.Errorf("%s wasn't asked for in %d looks", name, count)
		}
	}
	if times["rotten"] != count || times["very large and rotten"] > 2 {
		t.Errorf("%v", times)
	}
	for at := 0; at < 20; at++ {
		c.faults[fmt.Sprintf("file %02d", at)] = true
	}
	c.record("zz", 100, 0)
	if got := c.look(400, 99, all); !got["zz"] || len(got) > 4 {
		t.Errorf("faults take all: %v", got)
	}
}

// What was at fault and takes more than half of the bytes comes first, too, at every other look: so the others have half of all bytes. What takes all of
// them has its turn alone.
func TestALargeFault(t *testing.T) {
	for size, most := range map[int64]int{200: 12, 201: 6, 399: 6, 400: 4, 3000: 4} {
		c := newCluster(t, 2)
		for at := 0; at < 10; at++ {
			c.record(fmt.Sprintf("file %02d", at), 50, 0, 1)
		}
		c.record("large", size/2, 0)
		c.record("large", size-size/2, 1)
		c.faults = map[string]bool{"large": true}
		times, isLast := map[string]int{}, false
		for at := 0; at < 12; at++ {
			asked := c.look(400, int64(at+1), all)
			isAfter := asked["large"] && isLast
			if isLast = asked["large"]; isAfter && size > 200 || at == 0 && isLast != (size < 400) || isLast && size < 400 && len(asked) == 1 {
				t.Errorf("%d bytes, look %d: %v", size, at, asked)
			}
			if bytes := 100 * int64(len(asked)-1); isLast && size < 400 && bytes+size > 400+100 {
				t.Errorf("%d bytes, look %d: %d bytes", size, at, bytes+size)
			}
			for name := range asked {
				times[name]++
			}
		}
		if times["large"] != most {
			t.Errorf("%d bytes: %v", size, times)
		}
		for name := range c.sizes {
			if times[name] == 0 {
				t.Errorf("%d bytes: %s wasn't asked for", size, name)
			}
		}
	}
}

// What isn't asked for is told of each device, with how much was never read, and when the rest was.
func TestWhatWaits(t *testing.T) {
	c := newCluster(t, 2)
	c.record("a", 100, 0, 1)
	c.record("b", 70, 1)
	c.record("empty", 0, 0, 1)
	c.look(1000, 50, all)
	c.record("c", 30, 0)
	plan := c.plan(0)
	if len(plan.Waiting) != 2 {
		t.Fatalf("%+v", plan.Waiting)
	}
	at := time.Unix(50, 0).UTC()
	for place, want := range []history.Waiting{{Folder: "docs", Number: 0, Files: 2, Bytes: 130, Never: 1, NeverBytes: 30}, {Folder: "docs", Number: 1, Files: 2, Bytes: 170}} {
		got := plan.Waiting[place]
		if got.Oldest == nil || !got.Oldest.Equal(at) {
			t.Errorf("%+v", got)
		}
		if got.Oldest = nil; got != want {
			t.Errorf("%+v in place of %+v", got, want)
		}
	}
	if plan := c.plan(1000); len(plan.Waiting) != 0 {
		t.Errorf("all is asked for, and waits: %+v", plan.Waiting)
	}
}

// What isn't recorded any more is forgotten; what is stays, whether it was asked for or not.
func TestForgotten(t *testing.T) {
	c := newCluster(t, 1)
	for _, name := range []string{"a", "b", "c"} {
		c.record(name, 100, 0)
	}
	c.look(1000, 1, all)
	c.indexes[0] = wire.NewIndex(1)
	c.record("b", 100, 0)
	c.record("d", 100, 0)
	c.look(0, 2, all)
	found := map[string]bool{}
	reader := c.history.AskedReader("docs", 0)
	defer reader.Release()
	for _, name := range []string{"a", "b", "c", "d"} {
		_, is, err := reader.Of(name)
		if err != nil {
			t.Fatal(err)
		}
		if is {
			found[name] = true
		}
	}
	if !same(found, "b") {
		t.Errorf("%v", found)
	}
}

// A year of looks each day, with files that come, change and go: each file is asked for within as many looks as its turn may take, and no look asks for
// more than its bytes and one file.
func TestAYear(t *testing.T) {
	random := rand.New(rand.NewSource(81))
	c := newCluster(t, 3)
	const budget, mostBytes = 300_000, 9000
	type copied struct {
		name   string
		device uint64
	}
	since := map[copied]int{} // in which look each file was recorded or asked for last
	come := func(name string, look int) {
		c.record(name, 1+random.Int63n(mostBytes), 0, 1, 2)
		for device := uint64(0); device < 3; device++ {
			since[copied{name, device}] = look
		}
	}
	for at := 0; at < 120; at++ {
		come(fmt.Sprintf("file %d", at), 0)
	}
	for look := 1; look <= 365; look++ {
		for at := 0; at < random.Intn(4); at++ {
			come(fmt.Sprintf("day %d %d", look, at), look)
		}
		total := int64(0)
		for name, size := range c.sizes {
			total += 3 * size
			if random.Intn(900) == 0 {
				come(name, look)
			}
		}
		isThere := func(device uint64) bool { return device != uint64(look%17) }
		asked, bytes := c.look(budget, int64(look)*86400, isThere), int64(0)
		for name := range asked {
			bytes += 3 * c.sizes[name]
			for device := uint64(0); device < 3; device++ {
				if isThere(device) {
					since[copied{name, device}] = look
				}
			}
		}
		if bytes > budget+3*mostBytes || bytes < budget && bytes < total {
			t.Errorf("look %d: %d bytes of %d", look, bytes, total)
		}
		for of, last := range since { // some of the bytes are for what is new, and three looks of 17 are without a device
			if limit := int(total/budget)*2 + 6; look-last > limit {
				t.Fatalf("look %d: %v waits since %d, of at most %d looks", look, of, last, limit)
			}
		}
	}
}
