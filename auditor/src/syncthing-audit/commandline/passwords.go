package commandline

import (
	"errors"
	"fmt"
	"io/fs"
	"strings"

	"syncthing-audit/regular"
)

// passwordsOf is the flag of the file with the passwords of encrypted folders: a command line is seen by others.
type passwordsOf struct{ read *Options }

func (p passwordsOf) String() string { return "" }

const (
	mostBytesOfSecret = 1 << 20
	mayOthersRead     = fs.FileMode(0o077)
)

// readSecret gives the lines of a file that nobody else may read or write.
func readSecret(path string) ([]string, error) {
	text, about, err := regular.Read(path, mostBytesOfSecret)
	if err != nil {
		return nil, err
	}
	if about.Mode()&mayOthersRead != 0 {
		return nil, errors.New("others may read or write it (chmod 600)")
	}
	lines := strings.Split(strings.TrimSuffix(string(text), "\n"), "\n")
	for at := range lines {
		lines[at] = strings.TrimSuffix(lines[at], "\r")
	}
	return lines, nil
}

// Set reads the file: a folder's id, a space and its password on each line.
func (p passwordsOf) Set(value string) error {
	lines, err := readSecret(value)
	if err != nil {
		return err
	}
	p.read.Passwords = map[string]string{}
	for at, line := range lines {
		folder, password, is := strings.Cut(line, " ")
		if !is || folder == "" || password == "" {
			return fmt.Errorf("line %d isn't a folder's id, a space and its password", at+1)
		}
		if _, had := p.read.Passwords[folder]; had {
			return fmt.Errorf("line %d has the password of folder %q once more", at+1, folder)
		}
		p.read.Passwords[folder] = password
	}
	return nil
}
