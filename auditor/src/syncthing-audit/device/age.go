package device

import (
	"errors"
	"fmt"
	"os"
	"path/filepath"
	"time"

	"syncthing-audit/part"
)

// mostCoarse is how coarse the times of files may be.
const mostCoarse = 2 * time.Second

// writtenAt says when a file of an index changed last. Syncthing writes to its index as it starts, and as it is stopped.
func writtenAt(database string) (time.Time, error) {
	var last time.Time
	entries, err := os.ReadDir(database)
	if err != nil {
		return last, err
	}
	for _, entry := range entries {
		info, err := entry.Info()
		switch {
		case errors.Is(err, os.ErrNotExist): // a running Syncthing took it away
		case err != nil:
			return last, err
		case info.ModTime().After(last):
			last = info.ModTime()
		}
	}
	return last, nil
}

// IsWrittenSince says whether the index that is beside a home's configuration was written at some moment or after it.
func IsWrittenSince(dir string, moment time.Time) bool {
	written, err := writtenAt(filepath.Join(dir, databaseName))
	return err == nil && moment.Sub(written) <= mostCoarse
}

// noteAge notes when the index was written last where config.xml changed after that.
func (h *Home) noteAge() error {
	written, err := writtenAt(h.database())
	if err != nil {
		return err
	}
	about, err := os.Stat(filepath.Join(h.Dir, "config.xml"))
	if err != nil {
		return err
	}
	if configured := about.ModTime(); configured.Sub(written) > mostCoarse {
		h.State = &part.Index{Written: written.UTC(), Configured: configured.UTC()}
	}
	return nil
}

// Doubts says in words what may be amiss with the index: it may not be Syncthing's present one, by the times of its files, or is to be repaired.
func (h *Home) Doubts() []string {
	doubts := []string{}
	if h.State != nil {
		doubts = append(doubts, fmt.Sprintf("%s was written last %s, and config.xml after that, %s. If Syncthing was started since then, it has its database "+
			"elsewhere: name that as --data DIR. If config.xml was only edited, all is well", h.database(), local(h.State.Written), local(h.State.Configured)))
	}
	if h.Newer != nil {
		doubts = append(doubts, fmt.Sprintf("%s was written last %s, and %s after that, %s. %s", h.database(), local(h.Newer.Read), h.Newer.Called(),
			local(h.Newer.Written), h.Newer.WhatToDo()))
	}
	if h.ToRepair {
		doubts = append(doubts, fmt.Sprintf("Syncthing found a fault in %s, and is to repair it at its next start (%s is there). Start it, let it finish, and "+
			"audit again", h.database(), databaseName+endingOfMark))
	}
	return doubts
}
