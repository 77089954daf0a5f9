package inputs

import (
	"io"
	"os"

	"syncthing-audit/join"
	"syncthing-audit/part"
	"syncthing-audit/signature"
	"syncthing-audit/terminal"
)

// MostOfPart is how many bytes a part has at most: one of 10,000,000 names has about 3 GB.
const MostOfPart = 32 << 30

// openSigners opens the file of those who may sign, if there is one.
func (i *lookInputs) openSigners(path string) error {
	if path == "" {
		return nil
	}
	signers, err := signature.OpenSigners(path)
	if err == nil {
		i.signers = signers
		i.closers = append(i.closers, signers.Close)
	}
	return err
}

// reader reads a part. Where it is to be signed, its head says by whom, and nothing else is read of it before that was checked.
func (i *lookInputs) reader(file *os.File, path string) (*part.Reader, error) {
	if i.signers == nil {
		return part.NewReader(terminal.Counted{From: file, To: &i.Work.Read})
	}
	copied, err := signature.Copied(file, MostOfPart)
	if err != nil {
		return nil, err
	}
	i.closers = append(i.closers, func() { copied.Close() })
	read, err := part.NewReader(terminal.Counted{From: io.NewSectionReader(copied, 0, MostOfPart), To: &i.Work.Read})
	if err != nil {
		return nil, err
	}
	return read, i.signers.Check(copied, read.Head().Device, path+signature.Suffix)
}

// take takes the device of a part.
func (i *lookInputs) take(stream part.Stream, path string) {
	device := join.NewDevice(stream, path)
	device.IsUnsigned = i.signers == nil
	i.Devices = append(i.Devices, device)
}
