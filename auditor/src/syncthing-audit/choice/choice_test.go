package choice

import "testing"

func TestMayHold(t *testing.T) {
	cases := []struct {
		directory, prefix string
		may               bool
	}{
		{"a", "", true}, {"a", "a/b", true}, {"a", "a", true}, {"a/b", "a/", true}, {"ab", "a", true},
		{"a", "ab", false}, {"b", "a/b", false},
	}
	for _, one := range cases {
		for _, slices := range []int{0, 7} {
			if (Names{one.prefix, slices / 2, slices}).MayHold(one.directory) != one.may {
				t.Errorf("%q below %q in slices of %d: expected %v", one.prefix, one.directory, slices, one.may)
			}
		}
	}
}

// An index goes on to the last name that may have been asked for: a name of another slice ends nothing.
func TestWhatIsPast(t *testing.T) {
	for name, isPast := range map[string]bool{"a": false, "b": false, "b/x": false, "bz": false, "c": true} {
		for _, asked := range []Names{{"b", 0, 0}, {"b", 1, 7}} {
			if asked.IsPast(name) != isPast {
				t.Errorf("%q behind %s: expected %v", name, asked.Words(), isPast)
			}
		}
		if (Names{"", 1, 7}).IsPast(name) {
			t.Errorf("%q is behind all", name)
		}
	}
}

// What is told of names that were asked for, and of the others.
func TestWords(t *testing.T) {
	for _, one := range []struct {
		asked                        Names
		words, none, others, command string
		flags                        string
	}{
		{Names{}, "all names", "", "", "", ""},
		{Names{"a b", 0, 0}, "the names that begin with 'a b'", "no name here begins with 'a b'", "names that don't begin with 'a b'", "--names 'a b'",
			"--names"},
		{Names{"", 3, 7}, "slice 3 of 7 of all names", "no name here is in slice 3 of 7", "names outside slice 3 of 7", "--slice 3/7", "--slice"},
		{Names{"a", 3, 7}, "slice 3 of 7 of the names that begin with a", "no name here that begins with a is in slice 3 of 7",
			"names that don't begin with a, and names outside slice 3 of 7", "--names a --slice 3/7", "--names and --slice"},
	} {
		if one.asked.Words() != one.words || one.asked.Others() != one.others || one.asked.Command() != one.command {
			t.Errorf("%+v: %q, %q, %q", one.asked, one.asked.Words(), one.asked.Others(), one.asked.Command())
		}
		if one.asked.IsAll() != (one.none == "") || !one.asked.IsAll() && one.asked.None(" here") != one.none {
			t.Errorf("%+v: %v, %q", one.asked, one.asked.IsAll(), one.asked.None(" here"))
		}
		if flags := one.asked.Unlike(Names{}); flags != one.flags {
			t.Errorf("%+v: %q", one.asked, flags)
		}
	}
	if flags := (Names{"a", 3, 7}).Unlike(Names{"a", 3, 8}); flags != "--slice" {
		t.Error(flags)
	}
}
