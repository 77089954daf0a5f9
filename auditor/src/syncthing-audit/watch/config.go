// Package watch has what a nightly audit is told to do, and what it tells of a night.
package watch

import (
	"bytes"
	"encoding/xml"
	"errors"
	"fmt"
	"io"
	"path/filepath"
	"strings"

	"syncthing-audit/choice"
	"syncthing-audit/device"
	"syncthing-audit/regular"
	"syncthing-audit/shell"
)

// Config says which devices are audited each night, how much of them, and who is told. It is read from XML, as Syncthing's own config.xml is.
type Config struct {
	XMLName  xml.Name   `xml:"watch"`
	Devices  []Device   `xml:"device"`
	Parts    []Parts    `xml:"parts"`
	Observed []Observed `xml:"observed"`
	Folders  []Folder   `xml:"folder"`
	Slices   []Slices   `xml:"slices"`
	Budget   []Budget   `xml:"budget"`
	State    []Place    `xml:"state"`
	Metrics  []Place    `xml:"metrics"`
	Page     []Place    `xml:"page"`
	Mail     []Mail     `xml:"mail"`
	Notify   []Command  `xml:"notify"`
	Ping     []Command  `xml:"ping"`
	unknown
}

// Device is one that is looked at while it runs: a home on this machine, or by ssh.
type Device struct {
	Place string `xml:"place,attr"`
	Data  string `xml:"data,attr"`
	Paths []Path `xml:"map"`
	unknown
}

// Path says where something is on the device's machine that its configuration has elsewhere, as of a container.
type Path struct {
	From string `xml:"from,attr"`
	To   string `xml:"to,attr"`
	unknown
}

// Maps gives where the paths of the device's configuration are on its machine.
func (d *Device) Maps() (device.Maps, error) {
	maps := device.Maps{}
	for _, path := range d.Paths {
		if strings.Contains(path.From, "=") {
			return nil, fmt.Errorf("<map from=%q>: a path with = isn't taken", path.From)
		}
		read, err := device.ParseMap(path.From + "=" + path.To)
		if err == nil {
			err = maps.Add(read)
		}
		if err != nil {
			return nil, fmt.Errorf("<map>: %w", err)
		}
	}
	return maps, nil
}

// Parts is a directory to which devices send their parts.
type Parts struct {
	Directory string  `xml:"directory,attr"`
	Hours     float64 `xml:"hours,attr"`   // an older part isn't of last night
	Signers   string  `xml:"signers,attr"` // the file of those who may sign parts
	unknown
}

// Observed is a device that is asked over Syncthing's own protocol.
type Observed struct {
	ID      string `xml:"id,attr"`
	Address string `xml:"address,attr"`
	unknown
}

// Folder is one that is audited; without any, all are.
type Folder struct {
	ID string `xml:"id,attr"`
	unknown
}

// Slices has each night audit one slice of the names.
type Slices struct {
	Count int `xml:"count,attr"`
	Hour  int `xml:"hour,attr"` // at which the next one is due, in UTC
	unknown
}

// Budget has each night read so many bytes of each folder of the devices that are observed.
type Budget struct {
	Bytes string `xml:"bytes,attr"` // a number with its unit, as --budget has it
	unknown
}

// Place is a file or a directory.
type Place struct {
	Path string `xml:"path,attr"`
	unknown
}

// Mail says who gets mails.
type Mail struct {
	To string `xml:"to,attr"`
	unknown
}

// Command is one for a shell.
type Command struct {
	Command string `xml:"command,attr"`
	unknown
}

// unknown is what an element has and isn't known: nothing of it may be passed over.
type unknown struct {
	Attributes []xml.Attr `xml:",any,attr"`
	Elements   []element  `xml:",any"`
}

// element is one of any name.
type element struct{ XMLName xml.Name }

// check says which attribute or element isn't known.
func (u unknown) check(in string) error {
	for _, attr := range u.Attributes {
		return fmt.Errorf("<%s> has no attribute %s", in, shell.Printable(attr.Name.Local))
	}
	for _, element := range u.Elements {
		return fmt.Errorf("<%s> has no element <%s>", in, shell.Printable(element.XMLName.Local))
	}
	return nil
}

const (
	mostBytes  = 1 << 20
	mostHours  = 10000
	usualHours = 30
)

// Read reads a configuration. On an error it gives what could be read, for those who are to be told.
func Read(path string) (*Config, error) {
	text, _, err := regular.Read(path, mostBytes)
	if err != nil {
		return &Config{}, err
	}
	return parse(text)
}

// parse reads the text of a configuration.
func parse(text []byte) (*Config, error) {
	config := &Config{}
	decoder := xml.NewDecoder(bytes.NewReader(text))
	if err := decoder.Decode(config); err != nil {
		return config, fmt.Errorf("this is no configuration of 'watch', which begins with <watch> and ends with </watch>: %w", err)
	}
	for {
		token, err := decoder.Token()
		if err == io.EOF {
			for _, check := range []func() error{config.checkKnown, func() error { return checkText(text) }, config.check} {
				if err := check(); err != nil {
					return config, err
				}
			}
			return config, nil
		}
		if err != nil {
			return config, err
		}
		if _, is := token.(xml.StartElement); is {
			return config, errors.New("it goes on behind </watch>")
		}
	}
}

// check says what is wrong with what was read.
func (c *Config) check() error {
	for _, err := range []error{c.checkCounts(), c.checkDevices(), c.checkNumbers()} {
		if err != nil {
			return err
		}
	}
	return nil
}

// checkKnown says which word isn't known.
func (c *Config) checkKnown() error {
	places, commands := append(append(append([]Place(nil), c.State...), c.Metrics...), c.Page...), append(append([]Command(nil), c.Notify...), c.Ping...)
	for _, err := range []error{c.unknown.check("watch"), checkEach("device", c.Devices), checkEach("parts", c.Parts), checkEach("observed", c.Observed), checkEach("folder", c.Folders),
		checkEach("slices", c.Slices), checkEach("budget", c.Budget), checkEach("state>, <metrics> or <page", places), checkEach("mail", c.Mail), checkEach("notify> or <ping", commands)} {
		if err != nil {
			return err
		}
	}
	return nil
}

// checkEach says which word of elements that are called so isn't known.
func checkEach[Element interface{ check(in string) error }](in string, elements []Element) error {
	for _, element := range elements {
		if err := element.check(in); err != nil {
			return err
		}
	}
	return nil
}

// check says which word of a device, or of its maps, isn't known.
func (d Device) check(in string) error {
	if err := d.unknown.check(in); err != nil {
		return err
	}
	return checkEach("map", d.Paths)
}

// checkCounts says what stands twice.
func (c *Config) checkCounts() error {
	for name, count := range map[string]int{"parts": len(c.Parts), "slices": len(c.Slices), "budget": len(c.Budget), "state": len(c.State), "metrics": len(c.Metrics), "page": len(c.Page), "mail": len(c.Mail),
		"notify": len(c.Notify), "ping": len(c.Ping)} {
		if count > 1 {
			return fmt.Errorf("<%s> stands twice", name)
		}
	}
	return nil
}

// checkDevices says what is wrong with the devices and folders, and which word isn't given.
func (c *Config) checkDevices() error {
	for _, device := range c.Devices {
		if _, err := device.Maps(); err != nil {
			return err
		}
	}
	if word := c.lacking(); word != "" {
		return fmt.Errorf("<%s=\"..\"> isn't given", word)
	}
	switch {
	case len(c.Devices)+len(c.Parts)+len(c.Observed) == 0:
		return errors.New("it names no <device>, no <parts> and no <observed>")
	case len(c.Budget) > 0 && len(c.Observed) == 0:
		return errors.New("<budget> is for <observed> devices, and there are none: <slices> says how much of others is read each night")
	case len(c.Observed) > 0 && len(c.Folders) == 0:
		return errors.New("of <observed> devices each <folder> is to be named")
	}
	return nil
}

// lacking gives the element and the word that it lacks; nothing where none does. An element without any word, and a word that is empty, are refused before
// (checkText), so an element that has one word alone has it.
func (c *Config) lacking() string {
	for _, device := range c.Devices {
		if device.Place == "" {
			return "device place"
		}
	}
	for _, parts := range c.Parts {
		if parts.Directory == "" {
			return "parts directory"
		}
	}
	for _, observed := range c.Observed {
		switch {
		case observed.ID == "":
			return "observed id"
		case observed.Address == "":
			return "observed address"
		}
	}
	for _, mail := range c.Mail {
		if strings.ContainsAny(mail.To, "\r\n") { // what stands behind would be a head of the mail
			return "mail to"
		}
	}
	return ""
}

// checkNumbers says which number isn't taken, and puts those that aren't given in place.
func (c *Config) checkNumbers() error {
	for at := range c.Parts {
		parts := &c.Parts[at]
		if !(parts.Hours >= 0 && parts.Hours <= mostHours) {
			return fmt.Errorf("hours=\"%v\" isn't taken: it is above 0, and at most %d", parts.Hours, mostHours)
		}
		if parts.Hours == 0 {
			parts.Hours = usualHours
		}
	}
	for _, slices := range c.Slices {
		if slices.Count < 1 || slices.Count > choice.MostSlices {
			return fmt.Errorf("count=\"%d\" isn't taken: slices are 1 to %d", slices.Count, choice.MostSlices)
		}
		if slices.Hour < 0 || slices.Hour > 23 {
			return fmt.Errorf("hour=\"%d\" isn't taken: it is 0 to 23", slices.Hour)
		}
	}
	return nil
}

// Expand gives a path whose ~ is the user's home.
func Expand(home, path string) string {
	if rest := strings.TrimPrefix(path, "~/"); rest != path {
		return filepath.Join(home, rest)
	}
	return path
}

// Due gives the slice that is due at a time, in seconds: the next one each day. So machines with the same settings have the same one at the same time.
func (c *Config) Due(seconds int64) choice.Names {
	if len(c.Slices) == 0 || c.Slices[0].Count == 1 {
		return choice.Names{}
	}
	const day, hour = 86400, 3600
	days := (seconds - int64(c.Slices[0].Hour)*hour) / day
	return choice.Names{Slice: int(days%int64(c.Slices[0].Count)) + 1, Slices: c.Slices[0].Count}
}
