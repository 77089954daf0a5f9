package forecast

import (
	"reflect"
	"testing"
)

// A scan of some names takes files elsewhere that are gone, and have the bytes of what it finds, for renamed: for each that it finds one, as long as there are some.
func TestAScanFindsRenames(t *testing.T) {
	for why, row := range map[string]struct {
		found   []string // names that no index has, of which all are scanned
		bytes   string
		there   []string // of the names that are recorded with the same bytes
		kind    Kind
		renamed []string
	}{
		"one is gone":                {[]string{"a"}, "same", []string{"n", "o"}, SendReceive, []string{"m"}},
		"all are there":              {[]string{"a"}, "same", []string{"m", "n", "o"}, SendReceive, nil},
		"all are gone":               {[]string{"a"}, "same", nil, SendReceive, []string{"m"}},
		"the first is there":         {[]string{"a"}, "same", []string{"m"}, SendReceive, []string{"n"}},
		"two are found":              {[]string{"a", "b"}, "same", nil, SendReceive, []string{"m", "n"}},
		"two are found, one is gone": {[]string{"a", "b"}, "same", []string{"m", "o"}, SendReceive, []string{"n"}},
		"more are found":             {[]string{"a", "b", "c", "d"}, "same", nil, SendReceive, []string{"m", "n", "o"}},
		"none is found":              {nil, "same", nil, SendReceive, nil},
		"no bytes":                   {[]string{"a"}, "", nil, SendReceive, nil},
		"a sender":                   {[]string{"a"}, "same", nil, SendOnly, []string{"m"}},
		"a receiver":                 {[]string{"a"}, "same", nil, ReceiveOnly, nil},
	} {
		var names []Name
		scanned := map[int]bool{}
		for _, name := range []string{"a", "b", "c", "d", "e"} {
			added := inStep(name, "other", 3, 5)
			for _, found := range row.found {
				if name == found {
					scanned[len(names)] = true
					added = inStep(name, row.bytes, 3, 5)
					added.Own[1] = nil
				}
			}
			names = append(names, added)
		}
		for _, name := range []string{"m", "n", "o"} {
			added := inStep(name, row.bytes, 3, 5)
			is := added.Disk[1]
			added.Disk[1] = nil
			for _, there := range row.there {
				if name == there {
					added.Disk[1] = is
				}
			}
			names = append(names, added)
		}
		devices := three()
		devices[1].Kind = row.kind
		l := newLoader(devices, names)
		s := l.start(names)
		if len(row.found) == 0 {
			scanned[4] = true // of no name at all a scan is of all
		}
		s.scan(1, scanned)
		var renamed []string
		for n := range names {
			if s.own(1, n).deleted {
				renamed = append(renamed, names[n].Name)
			}
		}
		if !reflect.DeepEqual(renamed, row.renamed) {
			t.Errorf("%s: %v are renamed, not %v", why, renamed, row.renamed)
		}
	}
}
