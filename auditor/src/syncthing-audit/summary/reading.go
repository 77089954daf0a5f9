package summary

import (
	"io"

	"syncthing-audit/shell"
)

// noticing is where a summary goes. It notices whether a name is told that can't be typed.
type noticing struct {
	to               io.Writer
	hasOneForReading bool
}

func (n *noticing) Write(text []byte) (int, error) {
	n.hasOneForReading = n.hasOneForReading || shell.HasOneForReading(string(text))
	return n.to.Write(text)
}

// forReading says what to do with names that can't be typed.
func (p *printer) forReading(noticed *noticing) {
	if noticed.hasOneForReading {
		p.Line("not for typing: a name in [not-for-typing:..] has bytes that can't be typed in one way in all shells. It is given for reading, each such byte "+
			"as %s and two digits. Choose that file in a file manager, or by a pattern, * in place of these bytes, after seeing that it fits that file alone", `\x`)
	}
}
