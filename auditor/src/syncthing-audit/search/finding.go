package search

import (
	"fmt"
	"io"
	"path/filepath"

	"syncthing-audit/amount"
	"syncthing-audit/commandline"
	"syncthing-audit/disk"
	"syncthing-audit/exit"
	"syncthing-audit/history"
	"syncthing-audit/outside"
	"syncthing-audit/shell"
)

// wantedOf reads the bytes of the name from the history. One that isn't there isn't made.
func wantedOf(asked commandline.Options) ([]history.Reading, error) {
	if err := history.CheckThere(asked.History); err != nil {
		return nil, fmt.Errorf("refused: there is no history: %w", err)
	}
	kept, err := history.Open(asked.History)
	if err != nil {
		return nil, err
	}
	defer kept.Close()
	wanted, err := kept.Wanted(asked.Folders[0], shell.Named(asked.Parts[0]))
	if err == nil && len(wanted) == 0 {
		err = fmt.Errorf("refused: the history has no bytes of %s in %s", shell.Path(shell.Named(asked.Parts[0])), asked.Folders[0])
	}
	return wanted, err
}

// find tells each file that has wanted bytes. Its status says whether one has, whether none has, or whether none has as far as was looked.
func find(asked commandline.Options, wanted []history.Reading, output, log io.Writer) (int, error) {
	places, err := placesToSearch(asked.Parts[1:])
	if err != nil {
		return 0, err
	}
	search := &search{places: places, wanted: wanted, pool: disk.NewPool(asked.Jobs), output: output, log: log}
	defer search.pool.Close()
	for _, place := range places {
		if err := filepath.WalkDir(place, search.visit); err != nil {
			return 0, err
		}
	}
	outside.Printf(log, "syncthing-audit: %s of %s in %s: %s of that size read, %d not looked at\n", amount.Of(search.found, "file"),
		"the bytes that were read of "+shell.Path(shell.Named(asked.Parts[0])), asked.Folders[0], amount.Of(search.read, "file"), search.unread)
	switch {
	case search.found > 0:
		return exit.Done, nil
	case search.unread > 0:
		return exit.Partial, nil
	}
	return exit.NotSettled, nil
}

// Run looks in directories for a file with the bytes that a history has of a name.
func Run(asked commandline.Options, output, log io.Writer) (int, error) {
	wanted, err := wantedOf(asked)
	if err != nil {
		return 0, err
	}
	return find(asked, wanted, output, log)
}
