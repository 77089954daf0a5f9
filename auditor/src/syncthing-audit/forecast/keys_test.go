package forecast

import "testing"

// Ends have one key where the same stands on the same disks with the same notes, whatever the modes are, and the times of what is no file.
func TestKeysOfEnds(t *testing.T) {
	file := placed{root: 1, what: node{kind: File, time: 5, content: 1, target: 1, mode: 0o644}}
	changed := func(change func(*placed)) placed {
		other := file
		change(&other)
		return other
	}
	keys := map[string]bool{}
	noted := func(device, n int, why Why) []noted { return []noted{{device, n, why}} }
	ends := map[string]numbered{
		"kept":                   {disks: [][]placed{{file}, nil}, apart: noted(0, 1, NotSeen)},
		"kept elsewhere":         {disks: [][]placed{{file}, nil}, apart: noted(1, 1, NotSeen)},
		"another one kept":       {disks: [][]placed{{file}, nil}, apart: noted(0, 2, NotSeen)},
		"kept for another cause": {disks: [][]placed{{file}, nil}, apart: noted(0, 1, KeepsLocalChange)},
		"two kept":               {disks: [][]placed{{file}, nil}, apart: append(noted(0, 1, NotSeen), noted(1, 1, NotSeen)...)},
		"stuck":                  {disks: [][]placed{{file}, nil}, stuck: []Stuck{{Device: 0, Why: NotSeen}}, names: []int{1}},
		"another one stuck":      {disks: [][]placed{{file}, nil}, stuck: []Stuck{{Device: 0, Why: NotSeen}}, names: []int{2}},
		"among old versions":     {disks: [][]placed{{file}, nil}, versions: noted(0, 1, NoReason)},
		"kept and old versions":  {disks: [][]placed{{file}, nil}, apart: noted(0, 1, NoReason)},
		"stuck and kept":         {disks: [][]placed{{file}, nil}, stuck: []Stuck{{Device: 0, Why: NotSeen}}, names: []int{1}, apart: noted(1, 1, NotSeen)},
	}
	for why, disks := range map[string][][]placed{
		"nothing":         {nil, nil},
		"on the first":    {{file}, nil},
		"on the second":   {nil, {file}},
		"on both":         {{file}, {file}},
		"twice on one":    {{file, file}, nil},
		"no device":       {},
		"another name":    {{changed(func(p *placed) { p.root = 2 })}, nil},
		"a copy":          {{changed(func(p *placed) { p.isCopy = true })}, nil},
		"other bytes":     {{changed(func(p *placed) { p.what.content = 2 })}, nil},
		"another target":  {{changed(func(p *placed) { p.what.target = 2 })}, nil},
		"something else":  {{changed(func(p *placed) { p.what.kind = Symlink })}, nil},
		"another time":    {{changed(func(p *placed) { p.what.time = 6 })}, nil},
		"both swapped":    {{changed(func(p *placed) { p.root, p.what.content = 2, 2 })}, nil},
		"others together": {{file, changed(func(p *placed) { p.root = 2 })}, nil},
	} {
		ends[why] = numbered{disks: disks}
	}
	for why, end := range ends {
		if key := end.key(); keys[key] {
			t.Errorf("%s has the key of another end", why)
		} else {
			keys[key] = true
		}
	}
	directory := changed(func(p *placed) { p.what.kind = Directory })
	later := directory
	later.what.time = 6
	for why, pair := range map[string][2]placed{"another mode": {file, changed(func(p *placed) { p.what.mode = 0o600 })}, "another time of a directory": {directory, later}} {
		one, other := numbered{disks: [][]placed{{pair[0]}, nil}}, numbered{disks: [][]placed{{pair[1]}, nil}}
		if one.key() != other.key() {
			t.Errorf("%s makes another key", why)
		}
	}
}

// States are the same where they have the same up to the last thing that is anything, and where the same devices run.
func TestStatesThatAreTheSame(t *testing.T) {
	_, s := loaded(inStep("a", "old", 3, 5))
	none := &state{machine: s.machine}
	longer, empty, running, other := s.copied(), &state{machine: s.machine, cells: make([]int32, s.nameCells)}, s.copied(), s.copied()
	longer.cells = append(longer.cells, make([]int32, s.nameCells)...)
	running.on = 1 << 2
	other.remove(2, 0)
	for why, row := range map[string]struct {
		one, two *state
		is       bool
	}{"one": {s, s, true}, "longer": {s, longer, true}, "empty": {none, empty, true}, "nothing": {s, none, false}, "nothing there": {empty, s, false}, "running": {s, running, false}, "less": {s, other, false}} {
		if row.one.isSame(row.two) != row.is || row.two.isSame(row.one) != row.is || (row.one.key() == row.two.key()) != row.is {
			t.Errorf("%s: it is the same: %v", why, !row.is)
		}
	}
	for on := uint32(0); on < 32; on++ {
		running := s.copied()
		if running.on = 1 << on; running.key() == s.key() {
			t.Errorf("whether device %d runs makes no difference", on)
		}
	}
}
