package answering

import (
	"fmt"
	"io"
	"os"
	"time"

	"syncthing-audit/amount"
	"syncthing-audit/fault"
	"syncthing-audit/leftover"
	"syncthing-audit/outside"
	"syncthing-audit/script"
	"syncthing-audit/shell"
	"syncthing-audit/summary"
	"syncthing-audit/unsynced"
)

// checkScripts says why scripts can't be written to a directory.
func checkScripts(directory string) error {
	if directory == "" {
		return nil
	}
	if err := unsynced.CheckDirectory(directory, "the scripts", nil, nil); err != nil {
		return err
	}
	switch there, err := os.ReadDir(directory); {
	case err == nil && len(there) > 0:
		return fmt.Errorf("refused: something is in %s: name another directory for the scripts", shell.Quoted(directory))
	case err != nil && !os.IsNotExist(err):
		return fmt.Errorf("refused: %w: name another directory for the scripts", err)
	}
	return nil
}

// writeScripts writes the steps of an answer as scripts, and says how many these are.
func writeScripts(directory string, told *summary.Summary, log io.Writer) error {
	if directory == "" {
		return nil
	}
	scripts := script.Of(told, time.Now())
	if len(scripts) == 0 {
		outside.Printf(log, "syncthing-audit: the answer has no steps, so there are no scripts\n")
		return nil
	}
	staged, err := leftover.NewStaged(directory)
	if err != nil {
		return fault.Of(err)
	}
	for _, script := range scripts {
		if err = writeStaged(staged, script); err != nil {
			break
		}
	}
	if err == nil {
		err = fault.Of(staged.Put())
	}
	if err != nil {
		staged.Drop()
		return err
	}
	outside.Printf(log, "syncthing-audit: %s in %s; read each before you run it\n", amount.Of(len(scripts), "script"), directory)
	return nil
}

func writeStaged(staged *leftover.Staged, script script.File) error {
	file, err := staged.New(script.Name)
	if err != nil {
		return fault.Of(err)
	}
	if _, err := io.WriteString(fault.Writer{To: file}, script.Text); err != nil {
		file.Close()
		return err
	}
	return fault.Of(file.Close())
}
