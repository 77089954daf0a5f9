package device

import (
	"bufio"
	"encoding/binary"
	"fmt"
	"io"
	"math"

	"github.com/syndtr/goleveldb/leveldb/journal"
	"syncthing-audit/regular"
)

// manifest is what an index's manifest says.
type manifest struct {
	log      int64           // the number of the oldest log that counts
	nextFile int64           // each file that the manifest knows of has a lesser number
	tables   map[int64]int64 // the bytes of each table, by its number
}

// readManifest reads the manifest that counts.
func readManifest(database string) (*manifest, error) {
	path, err := currentManifest(database)
	if err != nil {
		return nil, err
	}
	file, _, err := regular.Open(path)
	if err != nil {
		return nil, err
	}
	defer file.Close()
	return readEntries(file)
}

// readEntries reads the entries of a manifest.
func readEntries(file io.Reader) (*manifest, error) {
	read := &manifest{tables: map[int64]int64{}}
	entries := journal.NewReader(file, nil, true, true)
	for {
		entry, err := entries.Next()
		if err == io.EOF {
			return read, nil
		}
		if err == nil {
			err = read.read(bufio.NewReader(entry))
		}
		if err != nil {
			return nil, fmt.Errorf("its manifest ends in the middle: %w", err)
		}
	}
}

// What the fields of a manifest's entry are, with what stands in each: numbers (n) and texts (t).
var fields = map[uint64]string{
	1: "t",     // how keys are compared
	2: "n",     // the log
	3: "n",     // the next file
	4: "n",     // a sequence
	5: "nt",    // where compaction is
	6: "nn",    // a table that is gone
	7: "nnntt", // a new table
	9: "n",     // an older log
}

// read reads an entry.
func (m *manifest) read(from *bufio.Reader) error {
	for {
		field, err := binary.ReadUvarint(from)
		if err == io.EOF {
			return nil
		}
		if err != nil {
			return err
		}
		parts, known := fields[field]
		if !known {
			return fmt.Errorf("it has a field %d", field)
		}
		var numbers []int64
		for _, kind := range parts {
			number, err := binary.ReadUvarint(from)
			if err == nil && kind == 't' {
				err = passOver(from, number)
			}
			if err != nil {
				return err
			}
			numbers = append(numbers, int64(number))
		}
		m.take(field, numbers)
	}
}

// passOver passes over a text of so many bytes. On a 32-bit machine an 'int' would cut a length that no text has to one that a text
// may have.
func passOver(from *bufio.Reader, bytes uint64) error {
	if bytes > math.MaxInt32 {
		return fmt.Errorf("it has a text of %d bytes", bytes)
	}
	_, err := from.Discard(int(bytes))
	return err
}

// take takes the numbers of a field, of texts their lengths.
func (m *manifest) take(field uint64, numbers []int64) {
	switch field {
	case 2:
		m.log = numbers[0]
	case 3:
		m.nextFile = numbers[0]
	case 6:
		delete(m.tables, numbers[1])
	case 7:
		m.tables[numbers[1]] = numbers[2]
	}
}
