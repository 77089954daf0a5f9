package signature

import (
	"errors"
	"fmt"
	"io"
	"os"

	"github.com/syncthing/syncthing/lib/protocol"
	"syncthing-audit/leftover"
	"syncthing-audit/regular"
	"syncthing-audit/shell"
)

// Signers are the keys that speak for devices, as a file of allowed signers has them (ssh-keygen(1)).
type Signers struct{ list *os.File }

// OpenSigners reads such a file. Who else may write it could have any key speak for any device.
func OpenSigners(path string) (*Signers, error) {
	data, about, err := regular.Read(path, mostOfSigners)
	if err == nil && (about.Mode().Perm()&0o022 != 0 || isOthers(about, os.Geteuid())) {
		err = fmt.Errorf("others may write it (mode %04o), and so may have any key speak for any device: 'chmod go-w', and look what it says", about.Mode().Perm())
	}
	var list *os.File
	if err == nil {
		list, err = keep(data)
	}
	if err != nil {
		return nil, fmt.Errorf("refused: the allowed signers %s: %w", shell.Quoted(path), err)
	}
	return &Signers{list}, nil
}

// Close ends it.
func (s *Signers) Close() { s.list.Close() }

// Copied copies a part into a file of this run alone: nobody changes the bytes any more between the check of their signature and their reading.
func Copied(part *os.File, most int64) (*os.File, error) {
	about, err := part.Stat()
	if err == nil && !about.Mode().IsRegular() {
		err = errors.New("refused: it is no file, and has no signature beside it")
	}
	if err != nil {
		return nil, err
	}
	copied, err := leftover.Unnamed()
	if err != nil {
		return nil, err
	}
	size, err := io.Copy(copied, io.LimitReader(part, most+1))
	if err == nil && size > most {
		err = fmt.Errorf("refused: it has more bytes than any part (over %d)", most)
	}
	if err != nil {
		copied.Close()
		return nil, fmt.Errorf("%w (TMPDIR may name another directory)", err)
	}
	return copied, nil
}

// Check says why a part isn't known to be by this device: the signature beside it, at this path, isn't one of the part's bytes by a key that speaks
// for the device.
func (s *Signers) Check(part *os.File, device, path string) error {
	id, err := protocol.DeviceIDFromString(device)
	if err != nil || id.String() != device {
		return fmt.Errorf("refused: it says that it is of %q, which isn't a device id as Syncthing writes it", device)
	}
	data, _, err := regular.Read(path, mostBytes)
	if os.IsNotExist(err) {
		return fmt.Errorf("refused: it isn't signed, so anybody may have made it: there is no %s. 'part --sign KEY' makes both files, and both are to be "+
			"brought here", shell.Quoted(path))
	}
	var signed *os.File
	if err == nil {
		signed, err = keep(data)
	}
	if err != nil {
		return fmt.Errorf("refused: its signature %s can't be read: %w", shell.Quoted(path), err)
	}
	defer signed.Close()
	others := []*os.File{s.list, signed}
	if _, err := run(part, others, "-Y", "verify", "-n", Namespace, "-f", "/dev/fd/3", "-I", device, "-s", "/dev/fd/4"); err != nil {
		return fmt.Errorf("refused: it isn't known to be by device %s, whose part it says it is: %w", device, err)
	}
	return nil
}
