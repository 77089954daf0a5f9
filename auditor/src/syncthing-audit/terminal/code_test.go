package terminal

import (
	"bytes"
	"os"
	"path/filepath"
	"reflect"
	"testing"
)

// A QR code is what qrencode makes of the text. Without that program there is none, and where nobody looks at a terminal none is shown.
func TestQRCodes(t *testing.T) {
	bin := t.TempDir()
	t.Setenv("PATH", bin)
	if lines := codeOf("ABC"); lines != nil {
		t.Errorf("without qrencode: %q", lines)
	}
	if err := os.WriteFile(filepath.Join(bin, "qrencode"), []byte("#!/bin/sh\nprintf '%s\\n' \"$*\" '█▀'\n"), 0o700); err != nil {
		t.Fatal(err)
	}
	if lines := codeOf("ABC"); !reflect.DeepEqual(lines, []string{"-t UTF8 -- ABC", "█▀"}) {
		t.Errorf("%q", lines)
	}
	var log bytes.Buffer
	if ShowCode(&log, "ABC"); log.Len() > 0 {
		t.Errorf("%q", log.String())
	}
}
