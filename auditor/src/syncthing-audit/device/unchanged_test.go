package device

import (
	"os"
	"path/filepath"
	"strings"
	"testing"
)

func TestIndexesThatChange(t *testing.T) {
	cases := []struct {
		why    string
		change func(database string) error
		good   bool
	}{
		{"as it was", func(string) error { return nil }, true},
		{"a new table", func(d string) error { return os.WriteFile(filepath.Join(d, "000007.ldb"), nil, 0o600) }, false},
		{"a table that is gone", func(d string) error { return os.Remove(filepath.Join(d, "000001.ldb")) }, false},
		{"a longer log", func(d string) error { return os.WriteFile(filepath.Join(d, "000002.log"), []byte("more"), 0o600) }, false},
	}
	for _, one := range cases {
		home := &Home{Dir: t.TempDir()}
		database := filepath.Join(home.Dir, databaseName)
		if err := os.Mkdir(database, 0o700); err != nil {
			t.Fatal(err)
		}
		for _, name := range []string{"000001.ldb", "000002.log"} {
			if err := os.WriteFile(filepath.Join(database, name), nil, 0o600); err != nil {
				t.Fatal(err)
			}
		}
		var err error
		if home.before, err = listingOf(database); err != nil {
			t.Fatal(err)
		}
		if err := one.change(database); err != nil {
			t.Fatal(err)
		}
		if err := home.checkUnchanged(); (err == nil) != one.good || err != nil && !strings.HasPrefix(err.Error(), "refused: "+home.Dir+": its index changed while it was read (") {
			t.Errorf("%s: %v", one.why, err)
		}
	}
}
