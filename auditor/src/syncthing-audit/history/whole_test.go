package history

import (
	"os"
	"path/filepath"
	"strings"
	"testing"
)

// filled gives the directory of a history with many readings, closed.
func filled(t *testing.T) string {
	room := filepath.Join(t.TempDir(), "history")
	if err := os.Mkdir(room, 0o755); err != nil {
		t.Fatal(err)
	}
	history, err := Open(room)
	if err != nil {
		t.Fatal(err)
	}
	many := device{}
	for at := 0; at < 500; at++ {
		many[strings.Repeat("n", 40)+string(rune('A'+at%26))+strings.Repeat("m", at/26)] = file{bytes: 'a'}
	}
	history.mustTake(t, 0, many, many)
	history.Close()
	return room
}

// A bit of a log that turns over doesn't take away what was read without a word. A log that ends early is one of a run that was killed.
func TestALogThatIsDamaged(t *testing.T) {
	room := filled(t)
	logs, _ := filepath.Glob(filepath.Join(room, "*.log"))
	if len(logs) != 1 {
		t.Fatal(logs)
	}
	whole, err := os.ReadFile(logs[0])
	if err != nil || len(whole) < 3<<15 {
		t.Fatal(len(whole), err)
	}
	for at := 0; at < len(whole); at += len(whole)/40 + 1 {
		torn := append([]byte(nil), whole...)
		torn[at] ^= 4
		if err := os.WriteFile(logs[0], torn, 0o600); err != nil {
			t.Fatal(err)
		}
		if history, err := Open(room); err == nil {
			history.Close()
			t.Fatalf("a bit of byte %d of %d: no word", at, len(whole))
		} else if !strings.Contains(err.Error(), "is damaged") {
			t.Errorf("byte %d: %v", at, err)
		}
		if is, err := os.ReadFile(logs[0]); err != nil || string(is) != string(torn) {
			t.Fatalf("byte %d: the log was written, %v", at, err)
		}
	}
	if err := os.WriteFile(logs[0], whole[:len(whole)-9], 0o600); err != nil {
		t.Fatal(err)
	}
	history, err := Open(room)
	if err != nil {
		t.Fatal(err)
	}
	history.Close()
}
