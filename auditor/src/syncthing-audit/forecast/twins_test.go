package forecast

import (
	"fmt"
	"testing"
)

// Of a directory with pairs of files of the same bytes that was renamed it is soon known what becomes: each pair may be renamed in two ways, and in which order the
// pairs are doesn't matter.
func TestManyTwinsAreRenamed(t *testing.T) {
	for _, pairs := range []int{1, 3, 8, 40} {
		answer := New(Usual).OfGroup(three(), renamedTwins(pairs))
		if len(answer.Ends) != 1 || answer.IsAll != (pairs < 9) || answer.Endless > 0 {
			t.Fatalf("%d pairs: %d ends, all: %v, endless: %d of %d", pairs, len(answer.Ends), answer.IsAll, answer.Endless, answer.Orders)
		}
		for i, disk := range answer.Ends[0].Disks {
			if len(disk) != 2*pairs || disk[0].Name[0] != 'e' {
				t.Errorf("%d pairs: device %d has %d files, the first is %s", pairs, i, len(disk), disk[0].Name)
			}
		}
	}
}

// renamedTwins gives pairs of files of the same bytes that the first of three devices renamed, of which the others heard nothing.
func renamedTwins(pairs int) []Name {
	var names []Name
	for pair := 0; pair < pairs; pair++ {
		for _, twin := range []string{"a", "b"} {
			names = append(names, renamedHere(fmt.Sprint("/", pair, twin), fmt.Sprint("text ", pair))...)
		}
	}
	return names
}

// renamedHere gives a file that the first of three devices moved from one directory to another one, of which the others heard nothing.
func renamedHere(name, text string) []Name {
	was, is := inStep("d"+name, text, 3, 5), inStep("e"+name, text, 3, 5)
	was.Own[0], was.Views[1][0], was.Views[2][0] = &Record{Type: File, Deleted: true, Version: []Counter{{10, 6}}, Time: 6, Mode: 0o644}, nil, nil
	was.Disk[0] = nil
	onFirst(is)
	return []Name{was, is}
}

// onFirst has a name be on the first device alone.
func onFirst(name Name) {
	for i := range name.Views {
		name.Views[i] = make([]*Record, 3)
		if i > 0 {
			name.Own[i], name.Disk[i] = nil, nil
		}
	}
}
