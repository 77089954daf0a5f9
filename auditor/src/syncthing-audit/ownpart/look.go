// Package ownpart writes the part of a device whose home is on this machine: of one that is stopped, or of two looks at one that may run.
package ownpart

import (
	"errors"
	"fmt"
	"io"
	"os"
	"os/signal"
	"path/filepath"
	"sort"
	"strings"
	"syscall"
	"time"

	"github.com/syncthing/syncthing/lib/config"
	"golang.org/x/exp/slices"
	"syncthing-audit/commandline"
	"syncthing-audit/device"
	"syncthing-audit/fault"
	"syncthing-audit/gather"
	"syncthing-audit/glance"
	"syncthing-audit/leftover"
	"syncthing-audit/looks"
	"syncthing-audit/outside"
	"syncthing-audit/part"
	"syncthing-audit/rest"
	"syncthing-audit/target"
)

// CheckLooks says what is wrong with the words that ask for one of two looks.
func CheckLooks(o *commandline.Options) error {
	switch {
	case o.About && (o.Begin || o.End):
		return commandline.WrongUse("--about looks at nothing: --begin and --end do")
	case o.Begin && o.End:
		return commandline.WrongUse("--begin and --end are two looks: the second one comes after the first looks at all devices")
	case o.End && len(o.Tokens) == 0:
		return commandline.WrongUse("--end needs --tokens FILE with the tokens that '--begin' wrote on all devices")
	case !o.End && len(o.Tokens) > 0:
		return commandline.WrongUse("--tokens is for --end")
	case !o.Begin && !o.About && o.Rescan:
		return commandline.WrongUse("--rescan is for --begin: a stopped Syncthing scans nothing")
	case !o.End && o.HasStill:
		return commandline.WrongUse("--still is for --end, and for 'run'")
	case o.Still < 0:
		return commandline.WrongUse("--still is at least 0")
	case !o.Begin && o.HeedsInput:
		return commandline.WrongUse("--heed-input is for --begin")
	case (o.End || o.About) && o.Steps:
		return commandline.WrongUse("--progress is for a part whose files are hashed: --end and --about hash none")
	case !o.End && len(o.LeaveOut) > 0:
		return commandline.WrongUse("--leave-out is for 'check', 'run' and 'export', and for 'part --end' with a device that has no token")
	}
	return nil
}

// Begin writes the part of the first look at a device that may run: its index, a glance at its disk, then the hashes of
// its files. The look is over before they are hashed. Its id is made after that, and leaves this program once all is written.
func Begin(asked commandline.Options, write target.Writing, output, log io.Writer) error {
	if asked.HeedsInput {
		heedInput(log)
	}
	from, err := openLive(asked, log)
	if err != nil {
		return err
	}
	defer from.Close()
	from.tellDoubts(log)
	glanced, over, err := firstLook(from.home, from.read)
	if err != nil {
		return err
	}
	defer glanced.Close()
	endProgress := from.StartProgress(log, asked)
	err = writeWhole(write, func(to io.Writer) error { return writeLines(to, log, from.read, glanced.Compare) })
	endProgress()
	if err != nil {
		return err
	}
	outside.Printf(log, looks.LineOfAge, time.Since(over).Seconds())
	token := looks.Token(from.read.ID, from.read.Look.ID)
	if asked.IsStandard {
		output = log
	}
	return outside.Println(fault.Writer{To: output}, token)
}

// openLive opens the home of a device that may run, by the index that its Syncthing writes to, and has it scan first where that is asked for.
func openLive(asked commandline.Options, log io.Writer) (*source, error) {
	isOwn, err := findIndex(asked, log)
	if err == nil && asked.Rescan {
		err = rescan(asked)
	}
	var rests map[string]*part.Rest
	if err == nil && asked.End {
		rests, err = WaitForRest(asked)
	}
	if err != nil {
		return nil, err
	}
	source, err := openSource(device.OpenLive, asked, log)
	if err == nil {
		source.read.Rest = rests
	}
	if err == nil && isOwn {
		source.home.State, source.read.Index = nil, nil
		source.home.Newer, source.read.Newer = nil, nil
	}
	return source, err
}

// findIndex finds where the index of a device is that may run, and whether Syncthing is known to write to it. What is named is taken. Where
// that isn't said, an index beside the configuration is taken but for one that is known to be another's. Where that is locked, Syncthing writes to
// it, and isn't asked.
func findIndex(asked commandline.Options, log io.Writer) (bool, error) {
	if asked.Data[0] != "" {
		return false, nil
	}
	home := asked.Homes[0]
	about, err := device.ReadConfig(home, asked.Maps[0]...)
	if err != nil {
		return false, err
	}
	if !device.HasIndex(home) {
		asked.Data[0], _ = asked.Maps[0].Path(askedWhere(home, about.GUI, log))
		return asked.Data[0] != "", nil
	}
	if device.IsHeld(home) {
		return true, nil
	}
	isOwn, isKnown := isWrittenTo(home, about.GUI, log)
	if isOwn || !isKnown {
		return isOwn, nil
	}
	data, err := whereElse(home, about.GUI)
	if err == nil {
		asked.Data[0], _ = asked.Maps[0].Path(data)
	}
	return err == nil, err
}

// isWrittenTo says whether Syncthing has written to the index beside a home's configuration since it was started, as it does to its own, and
// whether that is known: it isn't where Syncthing doesn't say when that was.
func isWrittenTo(home string, about config.GUIConfiguration, log io.Writer) (isOwn, isKnown bool) {
	started, err := rest.Syncthing{Home: home, GUI: about}.Started()
	if errors.Is(err, rest.ErrStranger) {
		outside.Printf(log, "syncthing-audit: %s: Syncthing can't be asked when it was started: %v\n", home, err)
	}
	if err != nil {
		return false, false
	}
	return device.IsWrittenSince(home, started), true
}

// askedWhere asks Syncthing where its database is, and tells why it can't be asked.
func askedWhere(home string, about config.GUIConfiguration, log io.Writer) string {
	data, err := rest.Syncthing{Home: home, GUI: about}.DataDirectory()
	if err != nil {
		outside.Printf(log, "syncthing-audit: Syncthing can't be asked where its database is: %v\n", err)
	}
	return data
}

// whereElse asks Syncthing where its database is, since the index beside a home's configuration isn't its own.
func whereElse(home string, about config.GUIConfiguration) (string, error) {
	data, err := rest.Syncthing{Home: home, GUI: about}.DataDirectory()
	if err != nil {
		return "", fmt.Errorf("refused: %s: Syncthing runs, and it hasn't written to the index there since it was started: it has its database elsewhere. "+
			"Name that behind the home as --data DIR. It can't be asked where it is: %w", home, err)
	}
	return data, nil
}

// heedInput has the end of standard input end the program, as a hangup does. Nobody may read standard error by then.
func heedInput(log io.Writer) {
	signal.Ignore(syscall.SIGPIPE)
	go func() {
		io.Copy(io.Discard, os.Stdin)
		outside.Print(log, "syncthing-audit: standard input ended, so nobody waits for this look any more\n")
		leftover.End(syscall.SIGHUP)
	}()
}

// firstLook looks at a device's disk, whose index was copied before, and then gives the look its id; it says when it was over.
func firstLook(home *device.Home, read *gather.Device) (*glance.Glance, time.Time, error) {
	var err error
	if read.Look, err = lookOf(home); err != nil {
		return nil, time.Time{}, err
	}
	glanced, err := read.Glance()
	if err != nil {
		return nil, time.Time{}, err
	}
	if read.Look.ID, err = looks.NewID(); err != nil {
		glanced.Close()
		return nil, time.Time{}, err
	}
	over := time.Now()
	read.Look.At = over.UTC()
	return glanced, over, nil
}

// End writes the part of the second look at a device: its index and what stands on its disk, with no file read.
func End(asked commandline.Options, write target.Writing, log io.Writer) error {
	tokens, err := readTokens(asked.Tokens)
	if err != nil {
		return err
	}
	began := time.Now().UTC()
	from, err := openLive(asked, log)
	if err != nil {
		return err
	}
	defer from.Close()
	if from.read.Look, err = lookOf(from.home); err != nil {
		return err
	}
	from.read.Look.After, from.read.Look.At = tokens, began
	if err := checkTokens(from.read, asked, log); err != nil {
		return err
	}
	return write(func(to io.Writer) error {
		return writeLines(to, log, from.read, func(sink part.Sink) part.Sink {
			return func(line part.Line) error {
				if line.Name != nil {
					line.Name = glance.WithoutChanging(line.Name)
				}
				return sink(line)
			}
		})
	})
}

// TakeDefaultHome takes the home that Syncthing takes by itself, where there is one alone.
func TakeDefaultHome(o *commandline.Options) error {
	user, err := os.UserHomeDir()
	if err != nil {
		return err
	}
	found := []string{}
	usual := []string{filepath.Join(user, ".config/syncthing"), filepath.Join(user, ".local/state/syncthing")}
	for _, path := range usual {
		if device.IsHome(path) {
			found = append(found, path)
		}
	}
	switch len(found) {
	case 0:
		return commandline.WrongUse(fmt.Sprintf("no Syncthing home is at %s: give it as --home DIR, to 'run' as MACHINE:DIR; %s",
			strings.Join(usual, " or "), device.SaysWhere))
	case 2:
		return commandline.WrongUse(fmt.Sprintf("homes are at %s: give one of them as --home DIR, to 'run' as MACHINE:DIR", strings.Join(found, " and ")))
	}
	o.Homes = found
	return nil
}

// lookOf begins a look at a home.
func lookOf(home *device.Home) (*part.Look, error) {
	identity, err := home.Identity()
	return &part.Look{Home: identity}, err
}

// writeWhole writes into a file of its own first, so that nobody reads the beginning of what isn't at its end.
func writeWhole(write target.Writing, fill func(io.Writer) error) error {
	file, err := leftover.Unnamed()
	if err != nil {
		return err
	}
	defer file.Close()
	if err := fill(fault.Writer{To: fault.Temporary{To: file}}); err != nil {
		return err
	}
	if _, err := file.Seek(0, io.SeekStart); err != nil {
		return err
	}
	return write(func(to io.Writer) error {
		_, err := io.Copy(to, file)
		return err
	})
}

// readTokens reads the tokens of files, to their ends; a dash is standard input.
func readTokens(paths []string) (map[string]string, error) {
	tokens := map[string]string{}
	for _, path := range paths {
		if err := readTokensOf(path, tokens); err != nil {
			return nil, err
		}
	}
	return tokens, nil
}

// readTokensOf adds the tokens of one file.
func readTokensOf(path string, tokens map[string]string) error {
	from := os.Stdin
	if path != "-" {
		file, err := os.Open(path)
		if err != nil {
			return err
		}
		defer file.Close()
		from = file
	}
	if err := looks.ReadTokens(from, tokens); err != nil {
		return fmt.Errorf("refused: %s: %w", path, err)
	}
	return nil
}

// checkTokens says of which devices a second look has no token: their first looks may not be over.
func checkTokens(read *gather.Device, asked commandline.Options, log io.Writer) error {
	if read.Look.After[read.ID] == "" {
		return fmt.Errorf("refused: the tokens have none of this device, %s: make its first look with --begin", read.ID)
	}
	lacking, observers := []string{}, asked.KnownObservers()
	for _, folder := range read.Head().Folders {
		for _, sharing := range folder.Sharing {
			called := sharing.Name + " (" + sharing.Device + ")"
			if read.Look.After[sharing.Device] == "" && !slices.Contains(observers, sharing.Device) && !slices.Contains(lacking, called) {
				lacking = append(lacking, called)
			}
		}
	}
	if len(lacking) == 0 || asked.LeaveOut[part.Absent] {
		return nil
	}
	sort.Strings(lacking)
	told := fmt.Sprintf("the tokens have none of %s, with which folders are shared", strings.Join(lacking, ", "))
	if asked.Strict {
		return fmt.Errorf("refused: %s: add them, or leave these devices out with --leave-out %s", told, part.Absent)
	}
	outside.Printf(log, "syncthing-audit: %s: an audit leaves these devices out\n", told)
	return nil
}
