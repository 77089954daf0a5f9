package history

import (
	"errors"
	"fmt"
	"io"

	"github.com/syndtr/goleveldb/leveldb/journal"
	"github.com/syndtr/goleveldb/leveldb/storage"
)

// dropped keeps what a reader of a log drops.
type dropped struct {
	reason string // the last one
	isCut  bool   // whether the last one is what a write leaves that didn't come to its end
}

// Drop takes what is dropped.
func (d *dropped) Drop(err error) {
	var corrupted *journal.ErrCorrupted
	d.reason, d.isCut = err.Error(), false
	if errors.As(err, &corrupted) {
		d.isCut = corrupted.Reason == "missing chunk part" || corrupted.Reason == "chunk length overflows block"
	}
}

// checkLogs says why the logs of a history don't have all that was written to them. LevelDB passes over what is damaged in them: what was read of some
// files would be gone without a word. At the end of a log a write may be missing in part, where a process was killed.
func checkLogs(files storage.Storage) error {
	logs, err := files.List(storage.TypeJournal | storage.TypeManifest)
	if err != nil {
		return err
	}
	for _, log := range logs {
		if err := checkLog(files, log); err != nil {
			return err
		}
	}
	return nil
}

func checkLog(files storage.Storage, log storage.FileDesc) error {
	file, err := files.Open(log)
	if err != nil {
		return err
	}
	defer file.Close()
	lost := &dropped{}
	records := journal.NewReader(file, lost, false, true)
	for {
		record, err := records.Next()
		if lost.reason != "" && (err != io.EOF || !lost.isCut) {
			return fmt.Errorf("%s is damaged, so what it had of earlier audits is lost in part (%s): put a copy of the directory back, or name a new one",
				log, lost.reason)
		}
		if err == io.EOF {
			return nil
		}
		if err == nil {
			_, err = io.Copy(io.Discard, record)
		}
		if err != nil && err != io.ErrUnexpectedEOF {
			return err
		}
	}
}
