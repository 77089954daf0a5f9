package commandline

import (
	"errors"
	"fmt"
	"strings"

	"syncthing-audit/device"
	"syncthing-audit/part"
)

// List is a flag that may be given more than once.
type List []string

func (l *List) String() string { return strings.Join(*l, " ") }

// Set adds a value, which may not be empty.
func (l *List) Set(value string) error {
	if value == "" {
		return errors.New("empty")
	}
	*l = append(*l, value)
	return nil
}

// Filled is a flag whose word may not be empty: without a word nothing would be checked, say, where a variable of a script is unset.
type Filled string

func (f *Filled) String() string { return string(*f) }

// Set takes the word.
func (f *Filled) Set(value string) error {
	if value == "" {
		return errors.New("empty")
	}
	*f = Filled(value)
	return nil
}

// databaseOf is the flag that says where the database is of the home before it, of 'run' of the device before it.
type databaseOf struct {
	read   *Options
	before *[]string
	called string // what stands before it
}

func (d databaseOf) String() string { return "" }

// Set takes the directory.
func (d databaseOf) Set(value string) error {
	of := len(*d.before) - 1
	switch {
	case of < 0:
		return fmt.Errorf("it stands behind the %s whose database is there", d.called)
	case value == "":
		return errors.New("empty")
	case d.read.Data[of] != "":
		return fmt.Errorf("the database of %s is named already", (*d.before)[of])
	}
	d.read.Data[of] = value
	return nil
}

// mapOf is the flag that says where paths of the home before it are on its machine, of 'run' of the device before it.
type mapOf struct {
	read   *Options
	before *[]string
	called string // what stands before it
}

func (m mapOf) String() string { return "" }

// Set takes FROM=TO.
func (m mapOf) Set(value string) error {
	of := len(*m.before) - 1
	if of < 0 {
		return fmt.Errorf("it stands behind the %s whose paths these are", m.called)
	}
	mapping, err := device.ParseMap(value)
	if err != nil {
		return err
	}
	all := m.read.Maps[of]
	err = all.Add(mapping)
	m.read.Maps[of] = all
	return err
}

// Kinds is the flag of what may be left out.
type Kinds map[string]bool

func (k Kinds) String() string { return "" }

// Set adds kinds, with commas between.
func (k Kinds) Set(value string) error {
	for _, word := range strings.Split(value, ",") {
		if !part.IsKind(word) {
			return fmt.Errorf("%q is none of %s", word, strings.Join(part.Kinds, ", "))
		}
		k[word] = true
	}
	return nil
}

// halfOf is the flag that says where the part of the disks of the device before it will be.
type halfOf struct{ read *Options }

func (d halfOf) String() string { return "" }

// Set takes the file.
func (d halfOf) Set(value string) error {
	of := len(d.read.Parts) - 1
	switch {
	case of < 0:
		return errors.New("it stands behind the device whose disks are walked")
	case value == "":
		return errors.New("empty")
	case d.read.Disks[of] != "":
		return fmt.Errorf("the disks of %s are named already", d.read.Parts[of])
	}
	d.read.Disks[of] = value
	return nil
}
