package device

import (
	"os"
	"path/filepath"
	"strings"
	"testing"
)

// A copy takes the bytes of all files, and those of the logs once more.
func TestBytesOfACopy(t *testing.T) {
	database := t.TempDir()
	for name, bytes := range map[string]int{"000001.ldb": 1000, "000002.log": 100, "CURRENT": 10} {
		if err := os.WriteFile(filepath.Join(database, name), make([]byte, bytes), 0o600); err != nil {
			t.Fatal(err)
		}
	}
	if bytes, err := bytesFor(database); err != nil || bytes != 1210 {
		t.Errorf("%d, %v", bytes, err)
	}
}

// An index for which there is no room is refused before anything of it is copied, by the room that it takes.
func TestNoRoomForACopy(t *testing.T) {
	room, database := t.TempDir(), t.TempDir()
	t.Setenv("TMPDIR", room)
	free, err := freeIn(room)
	if err != nil || free <= 0 {
		t.Fatalf("%d, %v", free, err)
	}
	if made, err := roomFor(database); err != nil || filepath.Dir(made) != room {
		t.Errorf("an empty index has no room: %q, %v", made, err)
	}
	table := filepath.Join(database, "000001.ldb")
	if err := os.WriteFile(table, nil, 0o600); err != nil {
		t.Fatal(err)
	}
	const tenTB = 10 << 40
	if free > tenTB || os.Truncate(table, tenTB) != nil {
		t.Skip("no file here is larger than what is free")
	}
	made, err := roomFor(database)
	if err == nil || made != "" || !strings.Contains(err.Error(), "can't be copied to "+room+" (TMPDIR may name another directory): it takes 10995116.3 MB, and ") {
		t.Errorf("%q, %v", made, err)
	}
}

// A file system without a size of its own has room, and a directory that isn't there has none.
func TestFreeRoom(t *testing.T) {
	if free, err := freeIn("/proc"); err != nil || free != unknown {
		t.Errorf("%d, %v", free, err)
	}
	if _, err := freeIn("/nowhere"); err == nil || err.Error() != "statfs /nowhere: no such file or directory" {
		t.Error(err)
	}
	if _, err := bytesFor("/nowhere"); err == nil {
		t.Error("what isn't there takes bytes")
	}
}
