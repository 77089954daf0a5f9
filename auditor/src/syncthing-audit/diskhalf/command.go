package diskhalf

import (
	"encoding/hex"
	"errors"
	"flag"
	"fmt"
	"io"
	"io/fs"
	"os"
	"path/filepath"
	"runtime"
	"strconv"
	"strings"

	"syncthing-audit/bep"
	"syncthing-audit/choice"
	"syncthing-audit/limits"
	"syncthing-audit/part"
	"syncthing-audit/shell"
)

// Command is what a command line asks for.
type Command struct {
	Asked
	Output string // the file; nothing for standard output
	Jobs   int    // how many files are hashed at once
	Key    string // with which the part is signed; nothing where it isn't
}

// Usage says how a command line is wrong.
type Usage struct{ Reason string }

func (u *Usage) Error() string { return u.Reason }

// ReadCommand reads the words of a command line. More adds flags that only some program has.
func ReadCommand(words []string, more func(*flag.FlagSet, *Command)) (*Command, error) {
	command := &Command{Asked: Asked{Marker: part.UsualMarker}}
	flags := flag.NewFlagSet("disk", flag.ContinueOnError)
	flags.SetOutput(io.Discard)
	flags.Var((*after)(&command.Asked), "after", "")
	flags.Var((*blockSizes)(&command.BlockSizes), "block-size", "")
	flags.Func("names", "", func(word string) error {
		command.Names.Prefix = shell.Named(word)
		return nil
	})
	flags.Var(choice.SliceFlag{Names: &command.Names}, "slice", "")
	flags.StringVar(&command.Marker, "marker", command.Marker, "")
	flags.BoolVar(&command.Paths, "paths", false, "")
	flags.StringVar(&command.Config, "config", "", "")
	flags.StringVar(&command.Output, "o", "", "")
	flags.IntVar(&command.Jobs, "jobs", runtime.NumCPU(), "")
	if more != nil {
		more(flags, command)
	}
	for {
		if err := flags.Parse(words); err != nil {
			return nil, err
		}
		if flags.NArg() == 0 {
			break
		}
		if err := command.addFolder(flags.Arg(0)); err != nil {
			return nil, err
		}
		words = flags.Args()[1:]
	}
	return command, command.check()
}

// addFolder adds a folder that is given as ID=DIR.
func (c *Command) addFolder(word string) error {
	id, directory, is := strings.Cut(word, "=")
	if !is || !limits.IsFolderID(id) || directory == "" {
		return &Usage{fmt.Sprintf("%q is no folder with its directory: ID=DIR", word)}
	}
	for _, folder := range c.Folders {
		if folder.ID == id {
			return &Usage{fmt.Sprintf("folder %q is given twice", id)}
		}
	}
	c.Folders = append(c.Folders, Folder{id, directory})
	return nil
}

// check says what is wrong with a command line as a whole.
func (c *Command) check() error {
	switch {
	case len(c.Folders) == 0:
		return &Usage{"no folder is given: its id and its directory here, as ID=DIR"}
	case c.Asked.After == "":
		return &Usage{"--after TOKEN is missing: 'syncthing-audit observe' with --disk prints the command with it, once it has looked at this device"}
	case c.Jobs < 1:
		return &Usage{"--jobs is at least 1"}
	case c.Marker == "" || strings.ContainsAny(c.Marker, `/\`):
		return &Usage{"--marker is a name in the folder's directory"}
	}
	return nil
}

// after is the flag of the observer's token: whose disks are walked, and after which look.
type after Asked

func (a *after) String() string { return "" }

// Set reads a token: the device's id, and the id of the look.
func (a *after) Set(value string) error {
	device, look, _ := strings.Cut(value, ":")
	id, err := bep.ReadID(device)
	if err != nil {
		return err
	}
	if data, err := hex.DecodeString(look); err != nil || len(data) != 16 {
		return errors.New("it is no token, as 'observe' prints it")
	}
	a.Device, a.After = id.String(), strings.ToLower(look)
	return nil
}

// blockSizes is the flag of more sizes of blocks.
type blockSizes []int64

func (b *blockSizes) String() string { return "" }

// Set adds a size.
func (b *blockSizes) Set(value string) error {
	size, err := strconv.ParseInt(value, 10, 64)
	if err != nil || !bep.IsBlockSize(size) {
		return errors.New("it is no size of blocks in bytes, as 262144")
	}
	*b = append(*b, size)
	return nil
}

// CheckOutput says whether a part would be written into a folder of Syncthing: it would be found there, and sent to others.
func (c *Command) CheckOutput() error {
	if c.Output == "" {
		return nil
	}
	whole, err := filepath.Abs(c.Output)
	if err != nil {
		return err
	}
	if real, err := filepath.EvalSymlinks(filepath.Dir(whole)); err == nil {
		whole = filepath.Join(real, filepath.Base(whole))
	}
	for above := filepath.Dir(whole); ; above = filepath.Dir(above) {
		if _, err := os.Lstat(filepath.Join(above, c.Marker)); err == nil {
			return fmt.Errorf("refused: %s would be in a folder of Syncthing (%s is there), whose devices would all get it: name a file elsewhere",
				shell.Quoted(c.Output), shell.Quoted(filepath.Join(above, c.Marker)))
		} else if !errors.Is(err, fs.ErrNotExist) {
			return err
		}
		if above == filepath.Dir(above) {
			return nil
		}
	}
}

// Line says in words what was made.
func (t *Told) Line() string {
	told := fmt.Sprintf("%d names, %d bytes hashed", t.Names, t.Bytes)
	if t.Moved > 0 {
		told += fmt.Sprintf("; %d names changed meanwhile", t.Moved)
	}
	if t.Damaged > 0 {
		told += fmt.Sprintf("; the disk fails to give what it has of %d names: see the system's log", t.Damaged)
	}
	return told
}
