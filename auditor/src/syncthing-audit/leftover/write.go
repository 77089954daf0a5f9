package leftover

import "path/filepath"

// Write writes a file that stands at a path whole or not at all, in place of another one that is there.
func Write(path string, text []byte) error { return writeBy((*Whole).Put, path, text) }

// WriteNew does so at a path at which nothing is, as PutNew.
func WriteNew(path string, text []byte) error { return writeBy((*Whole).PutNew, path, text) }

func writeBy(put func(*Whole, string) error, path string, text []byte) error {
	file, err := NewWhole(filepath.Dir(path))
	if err != nil {
		return err
	}
	defer file.Drop()
	if _, err := file.Write(text); err != nil {
		return err
	}
	return put(file, path)
}
