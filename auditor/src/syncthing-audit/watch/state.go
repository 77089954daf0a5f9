package watch

import (
	"encoding/json"
	"errors"
	"os"
	"path/filepath"
	"syscall"

	"syncthing-audit/leftover"
	"syncthing-audit/regular"
)

// State is what one night leaves to the next.
type State struct {
	Month  string            `json:"month"`  // of the last mail that says how all is
	Limits map[string]Limits `json:"limits"` // of each audit, by its name
	Untold bool              `json:"untold"` // whether a night began, and didn't come to tell what it found

	IsFirst bool  `json:"-"` // whether no night left anything
	Lost    error `json:"-"` // why what the night before left can't be read

	directory string
	lock      *os.File
}

// ErrRuns says that another night goes on.
var ErrRuns = errors.New("another night goes on")

const (
	nameOfState = "watch.json"
	nameOfLock  = "watch.lock"
)

// OpenState takes the lock of a directory, and reads what the night before left there. A damaged file is as none, and is said: then more is told than is new.
func OpenState(directory string) (*State, error) {
	if err := os.MkdirAll(directory, 0o700); err != nil {
		return nil, err
	}
	lock, err := os.OpenFile(filepath.Join(directory, nameOfLock), os.O_RDWR|os.O_CREATE, 0o600)
	if err != nil {
		return nil, err
	}
	if err := syscall.Flock(int(lock.Fd()), syscall.LOCK_EX|syscall.LOCK_NB); err != nil {
		lock.Close()
		if errors.Is(err, syscall.EWOULDBLOCK) {
			return nil, ErrRuns
		}
		return nil, err
	}
	state := &State{}
	text, _, err := regular.Read(filepath.Join(directory, nameOfState), mostBytes)
	if err == nil {
		err = json.Unmarshal(text, state)
	}
	if err != nil {
		*state = State{IsFirst: os.IsNotExist(err)}
		if !state.IsFirst {
			state.Lost = err
		}
	}
	if state.Limits == nil {
		state.Limits = map[string]Limits{}
	}
	state.directory, state.lock = directory, lock
	return state, nil
}

// Close gives the lock back.
func (s *State) Close() { s.lock.Close() }

// Save keeps it for the next night.
func (s *State) Save() error {
	text, err := json.Marshal(s)
	if err != nil {
		return err
	}
	return WriteWhole(filepath.Join(s.directory, nameOfState), string(text)+"\n", 0o600)
}

// WriteWhole writes a file that is there whole or not at all.
func WriteWhole(path, text string, mode os.FileMode) error {
	file, err := leftover.NewWhole(filepath.Dir(path))
	if err != nil {
		return err
	}
	defer file.Drop()
	if _, err = file.WriteString(text); err == nil {
		err = file.Chmod(mode)
	}
	if err == nil {
		err = file.Put(path)
	}
	return err
}
