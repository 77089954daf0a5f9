package observe

import (
	"os"
	"path/filepath"
	"reflect"
	"strings"
	"testing"
)

// What is kept is read again, of each folder its own devices; a file that is none is told, and stays.
func TestAddresses(t *testing.T) {
	home := t.TempDir()
	addresses, err := OpenAddresses(home)
	if err != nil || len(addresses.Of([]string{"docs"})) != 0 {
		t.Fatal(addresses, err)
	}
	addresses.Add("docs", "B", "laptop:22000")
	addresses.Add("docs", "A", "")
	addresses.Add("more", "C", "nas:22000")
	addresses.Add("more", "B", "laptop:22000")
	if err := addresses.Keep(); err != nil {
		t.Fatal(err)
	}
	read, err := OpenAddresses(home)
	if err != nil || !reflect.DeepEqual(read.Of([]string{"docs"}), []string{"A", "B"}) || read.Devices["B"] != "laptop:22000" || read.Devices["A"] != "" || len(read.Of([]string{"none"})) != 0 {
		t.Errorf("%+v, %v", read, err)
	}
	for _, folders := range [][]string{nil, {"more", "docs"}} {
		if all := read.Of(folders); !reflect.DeepEqual(all, []string{"A", "B", "C"}) {
			t.Errorf("of %v: %v", folders, all)
		}
	}
	if left, err := filepath.Glob(filepath.Join(home, "*-*")); err != nil || len(left) != 0 {
		t.Errorf("%q is left", left)
	}
	if err := os.WriteFile(filepath.Join(home, nameOfAddresses), []byte("none"), 0o600); err != nil {
		t.Fatal(err)
	}
	if _, err := OpenAddresses(home); err == nil || !strings.HasPrefix(err.Error(), "addresses.json is damaged (") {
		t.Errorf("what is no list is read: %v", err)
	}
}
