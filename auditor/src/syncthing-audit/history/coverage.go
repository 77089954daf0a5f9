package history

import "time"

// Coverage says how much of a device's files in a folder has been read, and when the one was read that waits longest.
type Coverage struct {
	Files, Bytes int64
	Oldest       time.Time
	OldestName   string
}

// Coverage gives that of a device in a folder.
func (h *History) Coverage(folder string, device uint64) (Coverage, error) {
	var coverage Coverage
	prefix := keyOfReadings(folder, device)
	err := h.each(prefix, func(key, value []byte) error {
		reading, err := readReading(value)
		if err != nil {
			return err
		}
		if coverage.Files == 0 || reading.At.Before(coverage.Oldest) {
			coverage.Oldest, coverage.OldestName = reading.At, string(key[len(prefix):])
		}
		coverage.Files++
		coverage.Bytes += reading.Content.Size
		return nil
	})
	return coverage, err
}
