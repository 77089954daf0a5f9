// Command ondisk is 'syncthing-audit disk' by itself, for devices on which nothing else of this project runs: it needs none of Syncthing's packages and
// no C library, so it builds for Windows, macOS, FreeBSD and Android's Linux, too. It is called syncthing-audit-disk there.
package main

import (
	"errors"
	"flag"
	"fmt"
	"io"
	"os"
	"path/filepath"
	"syscall"
	"time"

	"syncthing-audit/disk"
	"syncthing-audit/diskhalf"
	"syncthing-audit/outside"
)

// version is set as the program is built.
var version = "of no release"

const usage = `usage: syncthing-audit-disk --after TOKEN [--block-size BYTES ..] [--names PREFIX] [--slice K/N] [--jobs N] [--marker NAME] [--config FILE] [--paths] -o FILE ID=DIR ..
       syncthing-audit-disk --version

Walks the directories of Syncthing folders on this device, hashes their files, and writes what it found into one file: names, sizes,
times and hashes, no file's bytes. It changes nothing in them. 'syncthing-audit observe' with --disk prints this command with its token.

  ID=DIR             a folder's id, and its directory on this device
  --after TOKEN      of which device this is, and after which look of the observer
  -o FILE            where the part goes: a new file, outside all folders of Syncthing
  --block-size BYTES cut files into blocks of this size, too, as records have it
  --names PREFIX, --slice K/N  only these names
  --jobs N           how many files are hashed at once
  --marker NAME      what Syncthing's configuration calls the folder's marker, if it isn't .stfolder
  --config FILE      Syncthing's config.xml on this device: the part says what is configured of the folders, and whether Syncthing is idle
                     with them, which it is asked at its page on this device
  --paths            the part has the paths of this machine, too

Exit status: 0 written; 2 refused; 3 usage; 5 the part can't be written.
`

// Exit statuses, as syncthing-audit has them.
const (
	statusDone    = 0
	statusRefused = 2
	statusUsage   = 3
	statusFault   = 5
)

func main() { os.Exit(run(os.Args[1:], os.Stdout, os.Stderr)) }

func run(words []string, output, log io.Writer) int {
	if len(words) == 1 && words[0] == "--version" {
		outside.Printf(output, "syncthing-audit-disk %s\n", version)
		return statusDone
	}
	asked, err := diskhalf.ReadCommand(words, nil)
	if err == nil && asked.Output == "" {
		err = &diskhalf.Usage{Reason: "-o FILE is missing: where the part goes"}
	}
	switch {
	case err == flag.ErrHelp:
		outside.Print(output, usage)
		return statusDone
	case err != nil:
		outside.Printf(log, "syncthing-audit-disk: %v\n", err)
		outside.Print(log, usage)
		return statusUsage
	}
	return write(asked, log)
}

// write makes the part.
func write(asked *diskhalf.Command, log io.Writer) int {
	if err := asked.CheckOutput(); err != nil {
		outside.Printf(log, "syncthing-audit-disk: %v\n", err)
		return statusRefused
	}
	pool := disk.NewPool(asked.Jobs)
	defer pool.Close()
	defer tellProgress(pool, log)()
	fault, err := put(asked.Output, func(to io.Writer) error {
		told, err := diskhalf.Write(to, asked.Asked, pool)
		if err != nil {
			return err
		}
		for _, why := range told.Unknown {
			outside.Printf(log, "syncthing-audit-disk: it isn't known which names are ignored: %s\n", why)
		}
		outside.Printf(log, "syncthing-audit-disk: %s\n", told.Line())
		return nil
	})
	if err == nil {
		return statusDone
	}
	outside.Printf(log, "syncthing-audit-disk: %v\n", err)
	if fault {
		return statusFault
	}
	return statusRefused
}

// put puts a file in its place once all is written. It says whether it can't be written, of an error.
func put(path string, write func(io.Writer) error) (bool, error) {
	if about, err := os.Lstat(path); err == nil && !about.Mode().IsRegular() {
		return false, fmt.Errorf("refused: %s is there, and is no file: name another one", path)
	}
	file, err := os.CreateTemp(filepath.Dir(path), ".syncthing-audit-disk-")
	if err != nil {
		return true, err
	}
	defer os.Remove(file.Name())
	faults := &faulting{to: file}
	err = write(faults)
	if err == nil { // else a machine that goes down may have a part of it in the file's place
		err = faults.note(synced(file))
	}
	if closed := file.Close(); err == nil {
		err = faults.note(closed)
	}
	if err == nil {
		err = faults.note(os.Rename(file.Name(), path))
	}
	return faults.failed, err
}

// sync has the system write a file to its disk.
var sync = (*os.File).Sync

// synced does so, where the file's system can.
func synced(file *os.File) error {
	err := sync(file)
	if errors.Is(err, syscall.EINVAL) || errors.Is(err, syscall.ENOTSUP) {
		return nil
	}
	return err
}

// faulting notes whether what is written can't be.
type faulting struct {
	to     io.Writer
	failed bool
}

func (f *faulting) Write(data []byte) (int, error) {
	count, err := f.to.Write(data)
	return count, f.note(err)
}

// note notes an error of the file.
func (f *faulting) note(err error) error {
	f.failed = f.failed || err != nil
	return err
}

// timeBetween is how often progress is told.
var timeBetween = 30 * time.Second

// tellProgress says now and then how much was hashed. What it gives ends that.
func tellProgress(pool *disk.Pool, log io.Writer) func() {
	stopped, ended := make(chan struct{}), make(chan struct{})
	go func() {
		defer close(ended)
		for {
			select {
			case <-stopped:
				return
			case <-time.After(timeBetween):
				outside.Printf(log, "syncthing-audit-disk: hashed %.1f GB\n", float64(pool.Hashed())/1e9)
			}
		}
	}()
	return func() {
		close(stopped)
		<-ended // before anybody takes the log
	}
}
