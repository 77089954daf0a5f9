package render

import (
	"os"
	"testing"
)

// What is made of flags.txt is what stands in the files.
func TestFilesAreCurrent(t *testing.T) {
	const auditor = "../../../.."
	files, err := Files(auditor)
	if err != nil {
		t.Fatal(err)
	}
	for place, text := range files {
		if standing, err := os.ReadFile(auditor + "/" + place); err != nil || string(standing) != text {
			t.Errorf("%s isn't current: go run syncthing-audit/flags/write auditor (%v)", place, err)
		}
	}
}
