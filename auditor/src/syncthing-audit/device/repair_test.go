package device

import (
	"os"
	"path/filepath"
	"strings"
	"testing"
)

// Syncthing's own mark beside an index is told, and no other file; that beside the index that counts.
func TestAnIndexThatIsToBeRepaired(t *testing.T) {
	home := &Home{Dir: homeOfTimes(t, 1000, 1000)}
	data := &Home{Dir: home.Dir, data: homeOfTimes(t, 1000, 1000)}
	for name, is := range map[string]bool{"index-v0.14.0.db.old": false, "index-v0.14.0.db.needsrepair": true} {
		path := filepath.Join(home.Dir, name)
		if err := os.WriteFile(path, nil, 0o600); err != nil {
			t.Fatal(err)
		}
		for _, one := range []*Home{home, data} {
			one.noteMark()
			told := strings.Join(one.Doubts(), "")
			if expected := is && one == home; one.ToRepair != expected || strings.Contains(told, "is to repair it at its next start (index-v0.14.0.db.needsrepair is there)") != expected {
				t.Errorf("%s beside %s: %s", name, one.dataDirectory(), told)
			}
		}
		os.Remove(path)
	}
}
