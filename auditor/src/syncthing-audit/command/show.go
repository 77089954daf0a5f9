package command

import (
	"fmt"
	"io"

	"syncthing-audit/fault"
	"syncthing-audit/part"
	"syncthing-audit/regular"
	"syncthing-audit/shell"
)

// showPart writes a part as lines of JSON. Of one that is damaged it writes what comes before that.
func showPart(path string, output io.Writer) error {
	file, _, err := regular.Open(path)
	if err != nil {
		return err
	}
	defer file.Close()
	read, err := part.NewReader(file)
	if err == nil {
		ahead := part.NewAhead(read)
		defer ahead.Close()
		err = part.Show(fault.Writer{To: output}, ahead)
	}
	if err != nil {
		return fmt.Errorf("%s: %w", shell.Quoted(path), err)
	}
	return nil
}
