package choice

import (
	"fmt"
	"strings"
	"testing"
)

// These slices are those of Python's hashlib: int.from_bytes(sha256(folder + b"\0" + name).digest()[:8], "big") % slices + 1. All versions
// and devices have them, so this test stays as it is.
func TestSlices(t *testing.T) {
	for _, one := range []struct {
		folder, name    string
		of2, of7, of366 int
	}{
		{"docs", "a", 1, 7, 253}, {"docs", "photos/summer 2026.raw", 2, 1, 270}, {"pics", "a", 2, 7, 256}, {"docs", "ü", 2, 2, 134},
		{"docs", "\xff", 2, 3, 280},
	} {
		for slices, expected := range map[int]int{2: one.of2, 7: one.of7, 366: one.of366} {
			for slice := 1; slice <= slices; slice++ {
				if (Names{"", slice, slices}).Has(one.folder, one.name) != (slice == expected) {
					t.Errorf("slice %d of %d of %s has %q: %v", slice, slices, one.folder, one.name, slice != expected)
				}
			}
		}
	}
}

// All slices together have each name once, those that begin otherwise than was asked for none of them, and each has about as many.
func TestSpread(t *testing.T) {
	const names, slices = 7000, 7
	counts := [slices + 1]int{}
	for number := 0; number < names; number++ {
		name := fmt.Sprintf("%03d/%d.jpg", number/100, number)
		in, begun := 0, 0
		for slice := 1; slice <= slices; slice++ {
			if (Names{"", slice, slices}).Has("pics", name) {
				in++
				counts[slice]++
			}
			if (Names{"01", slice, slices}).Has("pics", name) {
				begun++
			}
		}
		if in != 1 || (begun == 1) != strings.HasPrefix(name, "01") || begun > 1 {
			t.Errorf("%s is in %d slices, and in %d where it has to begin with 01", name, in, begun)
		}
	}
	for slice, count := range counts[1:] {
		if count < names/slices*9/10 || count > names/slices*11/10 {
			t.Errorf("slice %d has %d names", slice+1, count)
		}
	}
}

// A slice is K/N as a person writes it. The one slice of one is all names.
func TestFlag(t *testing.T) {
	const form, most = "a slice is K/N", "at most"
	for word, told := range map[string]string{"1/2": "", "7/7": "", "366/366": "", "1/1": "", "0/7": form, "8/7": "there is no slice 8 of 7", "3": form,
		"a/b": form, "1/0": form, "0/0": form, "": form, "/": form, "3/7/": form, "-1/7": form, "+1/7": form, "01/7": form, " 1/7": form, "1/7\n": form,
		"1/367": most, "1/1000": form, "2/1": "there is no slice 2 of 1"} {
		var made Names
		err := (SliceFlag{&made}).Set(word)
		if (err == nil) != (told == "") || err != nil && !strings.Contains(err.Error(), told) {
			t.Errorf("%q: %v", word, err)
		}
		expected := Names{}
		if _, failed := fmt.Sscanf(word, "%d/%d", &expected.Slice, &expected.Slices); told != "" || failed != nil || word == "1/1" {
			expected = Names{}
		}
		if made != expected {
			t.Errorf("%q is %+v", word, made)
		}
	}
	made := Names{"a", 1, 7}
	if err := (SliceFlag{&made}).Set("2/7"); err == nil || !strings.Contains(err.Error(), "given twice") || made.Slice != 1 {
		t.Error(made, err)
	}
}

// A part that says of itself what no flag can ask for is none.
func TestCheck(t *testing.T) {
	for _, one := range []struct {
		names Names
		is    bool
	}{
		{Names{}, true}, {Names{"a", 0, 0}, true}, {Names{"", 1, 2}, true}, {Names{"", 366, 366}, true}, {Names{"", 1, 1}, false},
		{Names{"", 0, 7}, false}, {Names{"", 8, 7}, false}, {Names{"", 3, 0}, false}, {Names{"", 1, 367}, false}, {Names{"", -1, 7}, false},
	} {
		if err := one.names.Check(); (err == nil) != one.is {
			t.Errorf("%+v: %v", one.names, err)
		}
	}
}

func TestWhyAPartHasNoSuchSlice(t *testing.T) {
	if err := (Names{Slice: 9, Slices: 7}).Check(); err == nil || err.Error() != "it says that it has slice 9 of 7" {
		t.Errorf("slice 9 of 7: %v", err)
	}
}
