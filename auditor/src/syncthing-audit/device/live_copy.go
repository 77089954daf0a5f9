package device

import (
	"bytes"
	"errors"
	"fmt"
	"os"
	"path/filepath"
	"sort"
	"time"

	"golang.org/x/exp/slices"
	"syncthing-audit/regular"
)

// Copied says what a copy of an index took.
type Copied struct {
	Bytes  int64
	Rounds int // how often it was begun
}

// A copy of an index under heavy writes is begun again up to so often, each time after a longer pause.
const (
	mostRounds = 200
	firstPause = time.Millisecond
	mostPause  = 250 * time.Millisecond
)

// errAgain says that the index changed in a way that asks for another round.
var errAgain = errors.New("it changed while it was copied")

// liveCopy copies an index that a running Syncthing may be writing to. LevelDB's tables never change once they are written,
// and what isn't in a table stands in a log, to which it only adds. So the manifest and the logs are read first, then the
// tables that the manifest names. What was copied of these stays for the next round.
type liveCopy struct {
	from, to string
	copied   Copied
	tables   map[int64]bool // that are copied
}

// copyLive copies an index, as it was at one moment after the call. Nothing of the index is changed, and no lock is taken.
// Accept says why a copy isn't one to be taken: with errAgain another one is made.
func copyLive(from, to string, accept func(copied string) error) (Copied, error) {
	copied := &liveCopy{from: from, to: to, tables: map[int64]bool{}}
	for pause := firstPause; ; pause = longer(pause) {
		copied.copied.Rounds++
		err := copied.round()
		if err == nil {
			err = accept(to)
		}
		if err == nil || !errors.Is(err, errAgain) || copied.copied.Rounds == mostRounds {
			return copied.copied, err
		}
		time.Sleep(pause)
	}
}

// longer gives the pause behind a pause.
func longer(pause time.Duration) time.Duration {
	if pause *= 2; pause < mostPause {
		return pause
	}
	return mostPause
}

// again has a round begun anew where a file is gone, or was read while it was written.
func again(err error) error {
	if errors.Is(err, os.ErrNotExist) || errors.Is(err, errDamaged) {
		return fmt.Errorf("%w: %v", errAgain, err)
	}
	return err
}

// round copies the index once.
func (c *liveCopy) round() error {
	current, err := currentManifest(c.from)
	if err != nil {
		return again(err)
	}
	text, err := readRecords(current)
	if err != nil {
		return err
	}
	said, err := readEntries(bytes.NewReader(text))
	if err != nil {
		return again(err)
	}
	logs, err := c.logs(said.log)
	if err != nil {
		return err
	}
	if err := c.clear(said); err != nil {
		return err
	}
	for number, text := range logs {
		if err := c.write(fmt.Sprintf("%06d.log", number), text); err != nil {
			return err
		}
	}
	for number, size := range said.tables {
		if err := c.table(number, size); err != nil {
			return err
		}
	}
	if err := c.write(filepath.Base(current), text); err != nil {
		return err
	}
	return c.write("CURRENT", []byte(filepath.Base(current)+"\n"))
}

// readRecords reads a log or a manifest. One that ends within a record is read again. Either the record was being written,
// or a length in it is damaged. In the latter case what stands behind it must not be lost in silence.
func readRecords(path string) ([]byte, error) {
	text, _, err := regular.Read(path, mostBytesOfRecords)
	if err != nil {
		return nil, again(err)
	}
	end, err := endOfRecords(text)
	if err != nil {
		return nil, again(fmt.Errorf("%s: %w", filepath.Base(path), err))
	}
	if end != len(text) {
		return nil, fmt.Errorf("%w: %s ends in the middle", errAgain, filepath.Base(path))
	}
	return text, nil
}

// logNumbers gives the numbers of the logs that count, rising.
func (c *liveCopy) logNumbers(first int64) ([]int64, error) {
	entries, err := os.ReadDir(c.from)
	if err != nil {
		return nil, err
	}
	numbers := []int64{}
	for _, entry := range entries {
		if number, kind := fileNumber(entry.Name()); kind == ".log" && number >= first {
			numbers = append(numbers, number)
		}
	}
	sort.Slice(numbers, func(a, b int) bool { return numbers[a] < numbers[b] })
	if len(numbers) == 0 || numbers[0] != first {
		return nil, fmt.Errorf("%w: the log %06d.log is gone", errAgain, first)
	}
	return numbers, nil
}

// hasRead is told each log that was read: a test writes into it then.
var hasRead = func(path string) {}

// logs reads the logs that count, by their numbers. LevelDB begins a log once the one before has its last record, and takes
// the older one away first. So where the same ones are there before and after, no record is missing between two of them.
func (c *liveCopy) logs(first int64) (map[int64][]byte, error) {
	numbers, err := c.logNumbers(first)
	if err != nil {
		return nil, err
	}
	contents := map[int64][]byte{}
	for place, number := range numbers {
		path := filepath.Join(c.from, fmt.Sprintf("%06d.log", number))
		if contents[number], err = readRecords(path); err != nil {
			return nil, err
		}
		hasRead(path)
		if place == len(numbers)-1 {
			break
		}
		if about, err := os.Stat(path); err != nil {
			return nil, again(err)
		} else if about.Size() != int64(len(contents[number])) {
			return nil, fmt.Errorf("%w: %06d.log, behind which another one stands, ends in the middle", errAgain, number)
		}
	}
	after, err := c.logNumbers(first)
	if err != nil {
		return nil, err
	}
	if len(after) < len(numbers) || !slices.Equal(after[:len(numbers)], numbers) {
		return nil, fmt.Errorf("%w: a log came between others", errAgain)
	}
	return contents, nil
}

// clear takes away what an earlier round copied, but for tables that are wanted still.
func (c *liveCopy) clear(said *manifest) error {
	entries, err := os.ReadDir(c.to)
	if err != nil {
		return err
	}
	for _, entry := range entries {
		number, kind := fileNumber(entry.Name())
		if _, wanted := said.tables[number]; wanted && (kind == ".ldb" || kind == ".sst") && c.tables[number] {
			continue
		}
		delete(c.tables, number)
		if err := os.Remove(filepath.Join(c.to, entry.Name())); err != nil {
			return err
		}
	}
	return nil
}

// write writes a file of the copy.
func (c *liveCopy) write(name string, text []byte) error {
	c.copied.Bytes += int64(len(text))
	return os.WriteFile(filepath.Join(c.to, name), text, 0o600)
}

// table copies a table, unless an earlier round did. It is copied and not linked: whatever opens the copy, and however it
// goes wrong, has no way to the home's own files.
func (c *liveCopy) table(number, size int64) error {
	if c.tables[number] {
		return nil
	}
	about, err := tableInfo(c.from, number)
	if err != nil {
		return again(err)
	}
	if about.Size() != size {
		return fmt.Errorf("the table %s has %d bytes in place of %d", about.Name(), about.Size(), size)
	}
	to := filepath.Join(c.to, about.Name())
	if err := copyFile(filepath.Join(c.from, about.Name()), to); err != nil {
		os.Remove(to)
		return again(err)
	}
	c.tables[number] = true
	c.copied.Bytes += size
	return nil
}
