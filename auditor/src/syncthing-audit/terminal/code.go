package terminal

import (
	"io"
	"os/exec"
	"strings"

	"syncthing-audit/outside"
)

// codeOf gives a text as the lines of a QR code, which a phone's camera reads; none where Debian's qrencode isn't there.
func codeOf(text string) []string {
	drawn, err := exec.Command("qrencode", "-t", "UTF8", "--", text).Output()
	if err != nil {
		return nil
	}
	return strings.Split(strings.TrimSuffix(string(drawn), "\n"), "\n")
}

// ShowCode shows a text so on a terminal.
func ShowCode(log io.Writer, text string) {
	if !Is(log) {
		return
	}
	for _, line := range codeOf(text) {
		outside.Println(log, line)
	}
}
