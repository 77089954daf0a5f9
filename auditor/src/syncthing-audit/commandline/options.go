// Package commandline has what the command line asks for, and how that is told.
package commandline

import (
	"flag"
	"io"
	"os"
	"regexp"
	"runtime"
	"strings"
	"time"

	"syncthing-audit/choice"
	"syncthing-audit/device"
	"syncthing-audit/process"
	"syncthing-audit/shell"
	"syncthing-audit/summary"
)

// Options are what the command line asks for.
type Options struct {
	Homes      []string
	Data       map[int]string      // where the databases of homes, or of devices of 'run', are, by their places; nothing of one where it is in the home
	Maps       map[int]device.Maps // where the paths of their configurations are on their machines
	Parts      []string
	Folders    []string
	Names      choice.Names
	Strict     bool            // whether what can't be audited is refused
	LeaveOut   map[string]bool // but for these kinds
	Bytes      bool
	Lines      bool
	JSON       bool
	Script     string // the directory where scripts of the answer's steps go; nothing where none are asked for
	Into       string
	HTML       string // where a page goes
	Watch      string // the configuration of the nights that it is of
	Key        string // with which a part is signed; nothing where it isn't
	Signers    string // the file of those who may sign parts; nothing where that isn't asked
	Paths      bool   // whether a part has this machine's absolute paths
	Output     string // of standard output the file to which a shell has it go; nothing where that is none
	IsStandard bool   // whether the output is standard output
	Show       string // a part that is to be shown
	About      bool
	Begin      bool
	End        bool
	Tokens     []string // files with tokens
	Rescan     bool
	DryRun     bool
	HeedsInput bool    // whether the end of standard input ends a first look
	Steps      bool    // whether it is told now and then how many bytes are hashed
	Still      float64 // seconds
	HasStill   bool    // whether they were asked for
	Remote     string  // how this program is called on other machines
	Init       bool
	Records    bool              // whether records alone are asked for over the wire
	Listen     string            // where devices connect to the observer
	Observers  []string          // devices that keep no files, by their ids
	Passwords  map[string]string // of observe: those of encrypted folders, by their ids
	APIs       restAPIs          // of observe: the REST APIs of devices, by their ids
	Budget     int64             // of observe: how many bytes each look reads; 0 for all
	Every      time.Duration     // of observe: how often it looks; 0 for once
	Disks      map[int]string    // of observe: where the parts of the disks of devices will be, by the devices' places
	Program    string
	History    string                 // the directory of a history; nothing without one
	Take       func(*summary.Summary) // is given the answer, too; not needed
	Jobs       int
	HasJobs    bool // whether they were asked for
}

// OfLooks is what is asked of looks that this program made: all but where these were made.
func (o Options) OfLooks() Options {
	o.Homes, o.Parts, o.Data, o.Maps, o.Disks = nil, nil, nil, nil, nil
	return o
}

// Stillness is how long a second look waits until Syncthing is idle.
func (o *Options) Stillness() time.Duration { return time.Duration(o.Still * float64(time.Second)) }

// secondsOfStillness is how long second looks wait once all first ones are over, if --still doesn't say it. Mostly, what is
// on its way between devices arrives in that time.
const secondsOfStillness = 10

// HomeFlags are the flags behind a --home.
func HomeFlags(flags *flag.FlagSet, read *Options) {
	flags.Var(databaseOf{read, &read.Homes, "--home"}, "data", "")
	flags.Var(mapOf{read, &read.Homes, "--home"}, "map", "")
}

// WrongUsage says how the command line is wrong.
type WrongUsage struct{ reason string }

func (w *WrongUsage) Error() string { return w.reason }

// WrongUse gives the error that says so.
func WrongUse(reason string) error { return &WrongUsage{reason} }

// Read reads the words behind a command, with the flags that it has.
func Read(name string, words []string, flagsOf func(*flag.FlagSet, *Options)) (Options, error) {
	read := Options{LeaveOut: map[string]bool{}, Data: map[int]string{}, Maps: map[int]device.Maps{}, Disks: map[int]string{}}
	flags := flag.NewFlagSet(name, flag.ContinueOnError)
	flags.SetOutput(io.Discard)
	flags.Var((*List)(&read.Homes), "home", "")
	flags.Var((*List)(&read.Folders), "folder", "")
	flags.Func("names", "", func(word string) error {
		read.Names.Prefix = shell.Named(word)
		return nil
	})
	flags.Var(choice.SliceFlag{Names: &read.Names}, "slice", "")
	flags.IntVar(&read.Jobs, "jobs", runtime.NumCPU(), "")
	flagsOf(flags, &read)
	for {
		if err := flags.Parse(words); err == flag.ErrHelp {
			return Options{}, &WantsHelp{name}
		} else if err != nil {
			return Options{}, WrongFlag(name, err)
		}
		if flags.NArg() == 0 {
			break
		}
		read.Parts = append(read.Parts, flags.Arg(0))
		words = flags.Args()[1:]
	}
	flags.Visit(func(given *flag.Flag) {
		read.HasJobs = read.HasJobs || given.Name == "jobs"
		read.HasStill = read.HasStill || given.Name == "still"
	})
	if err := checkFlags(name, flags); err != nil {
		return Options{}, err
	}
	if read.Jobs < 1 {
		return Options{}, WrongUse("--jobs is at least 1")
	}
	return read, process.BecomeOwner(read.Homes)
}

const isOfAll = "'sum' is of all that was exported: --folder, --names and --slice are for 'export'"

// InsteadOf says what to do in place of a flag that a command hasn't.
var InsteadOf = map[string]string{
	"run --home":   "'run' has the devices' places without --home: 'laptop:' or 'laptop:DIR' by ssh, a directory on this machine",
	"sum --folder": isOfAll,
	"sum --names":  isOfAll,
	"sum --slice":  isOfAll,
}

// checkFlags says which flag was given that the command hasn't: those that many commands have are read for all of them.
func checkFlags(command string, given *flag.FlagSet) error {
	var err error
	given.Visit(func(flag *flag.Flag) {
		name := "--" + flag.Name
		if len(flag.Name) == 1 {
			name = name[1:]
		}
		switch told := InsteadOf[command+" "+name]; {
		case commandLine.IsOf(name, command) || err != nil:
		case told != "":
			err = WrongUse(told)
		default:
			err = WrongUse(command + " has no flag " + name)
		}
	})
	return err
}

// flagOfGo is a flag as Go's package names it: with one dash, however it was written.
var flagOfGo = regexp.MustCompile(`(^|\s)-([A-Za-z][A-Za-z-]+)`)

// WrongFlag says what is wrong with a flag of a command, which is named as the help does.
func WrongFlag(command string, err error) error {
	text := flagOfGo.ReplaceAllString(err.Error(), "$1--$2")
	if named := strings.TrimPrefix(text, "flag provided but not defined: "); named != text {
		text = "there is no flag " + named
		if commandLine.Has(named) {
			text = command + " has no flag " + named
		}
	}
	if named := strings.TrimPrefix(text, "flag needs an argument: "); named != text {
		text = named + " needs a word behind it"
	}
	return WrongUse(text)
}

// CheckInputs says what is wrong with homes and parts that belong together.
func (o *Options) CheckInputs() error {
	switch {
	case len(o.Homes)+len(o.Parts) == 0:
		return WrongUse("no home and no part is given")
	case len(o.Parts) > 0 && o.Bytes:
		return WrongUse("--bytes reads homes; parts have no bytes")
	case len(o.Parts) == 0 && o.Signers != "":
		return WrongUse("--allowed-signers is for parts: a home has no signature")
	}
	return nil
}

// PlaceFlags are the flags behind a place of 'run'.
func PlaceFlags(flags *flag.FlagSet, read *Options) {
	flags.Var(databaseOf{read, &read.Parts, "device"}, "data", "")
	flags.Var(mapOf{read, &read.Parts, "device"}, "map", "")
}

// ObserveFlags are the flags of 'observe' whose words have forms of their own.
func ObserveFlags(flags *flag.FlagSet, read *Options) {
	flags.Var(halfOf{read}, "disk", "")
	flags.Var(bytesOf{read}, "budget", "")
	flags.Var(everyOf{read}, "every", "")
	flags.Var(passwordsOf{read}, "passwords", "")
	flags.Var(apisOf{read}, "rest", "")
}

// StillFlag is the flag of commands that look twice.
func StillFlag(flags *flag.FlagSet, read *Options) {
	flags.Float64Var(&read.Still, "still", secondsOfStillness, "")
}

// ProgramFlag is the flag of commands that have syncaudit answer.
func ProgramFlag(flags *flag.FlagSet, read *Options) {
	flags.StringVar(&read.Program, "syncaudit", defaultProgram(), "")
}

// InputFlags are the flags of commands that join devices.
func InputFlags(flags *flag.FlagSet, read *Options) {
	HomeFlags(flags, read)
	ConsentFlags(flags, read)
	flags.BoolVar(&read.Bytes, "bytes", false, "")
	flags.Var((*Filled)(&read.Signers), "allowed-signers", "")
}

// defaultProgram gives the program that audits where none is named.
func defaultProgram() string {
	if named := os.Getenv("SYNCAUDIT"); named != "" {
		return named
	}
	return "syncaudit"
}
