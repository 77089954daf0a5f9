package forecast

import "testing"

// A file prevails over a symlink, however old the file is: Syncthing gives no time to a symlink.
func TestAFilePrevailsOverASymlink(t *testing.T) {
	name := inStep("a", "old", 3, 5).changed(0, "older", 3)
	name.Disk[1] = &Node{Type: Symlink, Time: 90, Target: "elsewhere", Mode: NoMode}
	answer := New(Usual).OfGroup(three(), []Name{name})
	for i := range three() {
		if text, _ := textAt(answer.Ends[0], i); len(answer.Ends) != 1 || text != "older" {
			t.Errorf("%+v", answer.Ends)
		}
	}
}

// A world may say that something stands below what is no directory, as of two moments: it isn't there, and doesn't come back where a directory is made.
func TestNothingStandsBelowWhatIsNoDirectory(t *testing.T) {
	for why, row := range map[string]struct {
		above *Node
		there bool
	}{"a directory": {&Node{Type: Directory}, true}, "a symlink": {&Node{Type: Symlink, Target: "x"}, false}, "a file": {&Node{Type: File}, false}, "nothing": {nil, false}} {
		names := []Name{inStep("d", "", 3, 5), inStep("d/e", "", 3, 5), inStep("d/e/a", "old", 3, 5)}
		names[0].Disk[1], names[1].Disk[1] = row.above, &Node{Type: Directory}
		s := newLoader(three(), names).start(names)
		for n := 1; n < 3; n++ {
			if s.disk(1, n).isThere() != row.there {
				t.Errorf("below %s there is %s: %v", why, names[n].Name, !row.there)
			}
		}
	}
}
