package inputs

import (
	"syncthing-audit/part"
	"syncthing-audit/regular"
)

// HeadOf reads the head of a part.
func HeadOf(path string) (*part.Head, error) {
	file, _, err := regular.Open(path)
	if err != nil {
		return nil, err
	}
	defer file.Close()
	read, err := part.NewReader(file)
	if err != nil {
		return nil, err
	}
	return read.Head(), nil
}
