package directory

import (
	"path/filepath"
	"strings"
)

// Place gives a text that is the same for one directory of one machine alone. It says nothing else of the directory.
func Place(path string) (string, error) {
	whole, err := filepath.Abs(path)
	if err != nil {
		return "", err
	}
	return placeOf(strings.ToLower(whole)), nil
}
