package device

import (
	"os"
	"path/filepath"
	"strings"
	"testing"
)

// The configuration is read once, so all that is said of a home is of one configuration, also while another one takes its place again and again.
func TestAHomeIsOfOneConfiguration(t *testing.T) {
	dir := t.TempDir()
	if err := os.WriteFile(filepath.Join(dir, "cert.pem"), []byte("-----BEGIN CERTIFICATE-----\nAAAA\n-----END CERTIFICATE-----\n"), 0o600); err != nil {
		t.Fatal(err)
	}
	path := filepath.Join(dir, "config.xml")
	texts := []string{}
	for _, one := range []string{"true", "false"} {
		texts = append(texts, `<configuration version="36"><folder id="docs" path="/srv/`+one+`"><syncXattrs>`+one+`</syncXattrs></folder></configuration>`)
	}
	put := func(turn int) {
		os.WriteFile(path+".new", []byte(texts[turn%2]), 0o600)
		os.Rename(path+".new", path)
	}
	put(0)
	done, ended := make(chan struct{}), make(chan struct{})
	go func() {
		defer close(ended)
		for turn := 1; ; turn++ {
			select {
			case <-done:
				return
			default:
				put(turn)
			}
		}
	}()
	for turn := 0; turn < 500; turn++ {
		read, err := readAbout(dir, nil)
		if err != nil || len(read.Config.Folders) != 1 || read.attributes["docs"] != strings.Contains(read.Config.Folders[0].Path, "true") {
			t.Fatalf("%+v, %v", read, err)
		}
	}
	close(done)
	<-ended
}
