package stignore

import "testing"

// A directory is ignored at the next scan unless a name below it is taken, with no other name between.
func TestDirectoriesThatTheNextScanIgnores(t *testing.T) {
	for why, row := range map[string]struct {
		names    []string // a directory that is ignored has a slash behind it
		toIgnore int64
	}{
		"none":                           {[]string{"a", "b"}, 0},
		"an empty one":                   {[]string{"a", "b/", "c"}, 1},
		"the last one":                   {[]string{"a", "b/"}, 1},
		"two, both empty":                {[]string{"b/", "c/"}, 2},
		"one with a file in it":          {[]string{"b/", "b/c", "d"}, 0},
		"one in one, both empty":         {[]string{"b/", "b/c/", "d"}, 2},
		"one in one, with a file":        {[]string{"b/", "b/c/", "b/c/d"}, 0},
		"one beside one with a file":     {[]string{"b/", "c/", "c/d"}, 1},
		"a file that stands before it":   {[]string{"b/", "b-c", "b/c"}, 1},
		"a directory that isn't ignored": {[]string{"b", "b/c/"}, 1},
	} {
		counted := ToIgnore{}
		for _, name := range row.names {
			if last := len(name) - 1; name[last] == '/' {
				counted.TakeDirectory(name[:last])
			} else {
				counted.TakeOther(name)
			}
		}
		counted.End()
		if counted.Names != row.toIgnore {
			t.Errorf("%s: %d, not %d", why, counted.Names, row.toIgnore)
		}
	}
}
