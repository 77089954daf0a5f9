// Package join brings the parts of several devices together, name by name.
package join

import (
	"errors"
	"fmt"
	"io"

	"syncthing-audit/part"
	"syncthing-audit/shell"
)

// Device is a device with its part.
type Device struct {
	Stream part.Stream
	Head   *part.Head
	Number uint64
	From   string // the home or the file, for messages

	IsUnsigned bool      // whether it was read from a part whose signature nobody checked
	IsHome     bool      // whether its home is read now, and no part that was made before
	line       part.Line // the next one, if it is there
	isLine     bool
}

// NewDevice gives the device of a part.
func NewDevice(stream part.Stream, from string) *Device {
	return &Device{Stream: stream, Head: stream.Head(), Number: stream.Head().Number(), From: from}
}

// Member is a device that shares a folder.
type Member struct {
	*Device
	About  *part.Folder
	Near   int64 // how many of its files have another time than recorded, which its Syncthing takes for the same
	Links  int64 // how many of its names are of files that have several
	Barred int64 // how many names its system can't have

	Temporary *part.Count     // its names that Syncthing takes for its temporary files, as far as its part tells them
	Linked    *part.Count     // its names of files that have links elsewhere, as far as its part tells them
	Holding   *part.Holding   // its directories that hold what .stignore keeps out, as far as its part tells them
	Deletable *part.Deletable // and that hold what goes with them
	ToIgnore  int64           // its directories whose records the next scan marks as ignored
	Unseen    Unseen          // of a device that is seen over the wire
}

// Folder is a folder with those of its devices that are audited, their numbers rising.
type Folder struct {
	ID      string
	Label   string
	Members []Member
	Own     string // the id of the one device, where that shares its folder with nobody, or is out
	IsOut   bool   // whether its device is left out of what is compared: of that one its own index and disk are compared

	isEarlier         map[string]bool // the devices of whose indexes others know later changes
	isEarlierThanWire map[string]bool // those of which others know so that are asked over the wire
	hasGoneBack       bool            // whether one of these was read no earlier than what knows so
}

// Called names the folder for a person.
func (f *Folder) Called() string { return shell.Folder(f.ID, f.Label) }

// Member gives the place of a device among a folder's members, or -1.
func (f *Folder) Member(device string) int {
	for place, member := range f.Members {
		if member.Head.Device == device {
			return place
		}
	}
	return -1
}

// Row is all that the members of a folder have of one name: nothing where one has nothing.
type Row struct {
	Name  string
	At    []*part.Name
	Later []int // the members at which it changed after their parts were made
}

// Size gives the most bytes that a member has, records or leaves out of the name.
func (r *Row) Size() int64 {
	most := int64(0)
	take := func(size int64) {
		if size > most {
			most = size
		}
	}
	for _, name := range r.At {
		if name == nil {
			continue
		}
		if name.Disk != nil {
			take(name.Disk.Size)
		}
		if name.Own != nil && name.Own.Content != nil {
			take(name.Own.Content.Size)
		}
		for _, out := range name.Out {
			take(out.Bytes)
		}
	}
	return most
}

// peek gives the next line of a device's part without taking it.
func (d *Device) peek() (part.Line, error) {
	if !d.isLine {
		next, err := d.Stream.Next()
		if err == io.EOF {
			return next, fmt.Errorf("%s: the part has no more folders", d.From)
		}
		if err != nil {
			return next, fmt.Errorf("%s: %w", d.From, err)
		}
		d.line, d.isLine = next, true
	}
	return d.line, nil
}

// Choose says which folders are to be read, where that is known before they are.
func (d *Device) Choose(isChosen func(id string) bool) {
	if chooser, is := d.Stream.(interface{ Choose(func(string) bool) }); is {
		chooser.Choose(isChosen)
	}
}

// Whole reads what is left of a part, once its folders were read, and says why it isn't whole.
func (d *Device) Whole() error {
	for {
		if _, err := d.Stream.Next(); err == io.EOF {
			return nil
		} else if err != nil {
			return fmt.Errorf("%s: %w", d.From, err)
		}
	}
}

// begin goes to the first name of a folder, past folders that aren't audited.
func (d *Device) begin(id string) error {
	for {
		line, err := d.peek()
		if err != nil {
			return err
		}
		d.isLine = false
		if line.Begin != nil && line.Begin.Folder == id {
			return nil
		}
	}
}

// nextName gives the next name of the folder without taking it; nothing at its end.
func (d *Device) nextName() (*part.Name, error) {
	line, err := d.peek()
	if err != nil {
		return nil, err
	}
	if line.Begin != nil {
		return nil, fmt.Errorf("%s: a folder begins inside another", d.From)
	}
	return line.Name, nil
}

// end takes the end of a folder, and says whether the index is still that of the part's head.
func (d *Device) end(about *part.Folder) (*part.End, error) {
	line, err := d.peek()
	if err != nil {
		return nil, err
	}
	d.isLine = false
	if line.End == nil {
		return nil, errors.New("a folder's end is missing")
	}
	if line.End.Max != about.Max {
		return nil, fmt.Errorf("refused: folder %s, %s: its index changed while it was read (sequence %d, then %d): make the part anew",
			shell.Folder(about.ID, about.Label), d.Label(), about.Max, line.End.Max)
	}
	return line.End, nil
}

// Label names a device in a sentence.
func (d *Device) Label() string { return "device " + d.Called() }

// Called gives what a person calls a device: its configured name and its id.
func (d *Device) Called() string { return shell.Device(d.Head.Name, d.Head.Device) }

// Rows gives the rows of a folder, rising by name, and then how many bytes were hashed. Folders are asked for in the
// order of their ids.
func (f *Folder) Rows(take func(*Row) error) (int64, error) {
	for _, member := range f.Members {
		if err := member.begin(f.ID); err != nil {
			return 0, err
		}
	}
	for {
		row, err := f.next()
		if err != nil {
			return 0, err
		}
		if row == nil {
			return f.finish()
		}
		if err := take(row); err != nil {
			return 0, err
		}
	}
}

// next gives the next row; nothing at the end.
func (f *Folder) next() (*Row, error) {
	heads := make([]*part.Name, len(f.Members))
	var least *part.Bytes
	for place, member := range f.Members {
		next, err := member.nextName()
		if err != nil {
			return nil, err
		}
		heads[place] = next
		if next != nil && (least == nil || next.Name < *least) {
			least = &next.Name
		}
	}
	if least == nil {
		return nil, nil
	}
	row := &Row{Name: string(*least), At: heads}
	for place, next := range heads {
		if next == nil || next.Name != *least {
			row.At[place] = nil
			continue
		}
		f.Members[place].isLine = false
		f.Members[place].takeTime(next)
		f.Members[place].countLink(next)
	}
	for place := range f.Members {
		f.Members[place].countBarred(row)
	}
	f.fill(row)
	f.addLater(row)
	return row, nil
}

// takeTime gives a file the recorded time where the device's Syncthing takes that for the same: no scan there finds it changed.
func (m *Member) takeTime(name *part.Name) {
	if m.About.TimeWindow > 0 && len(name.Out) == 0 && len(name.Moved) == 0 && name.HasNearTime(m.About.Window()) {
		name.TakeTime()
		m.Near++
	}
}

func (m *Member) countLink(name *part.Name) {
	if name.Disk != nil && name.Disk.Link != 0 {
		m.Links++
	}
}

// finish takes the ends of a folder.
func (f *Folder) finish() (int64, error) {
	total := int64(0)
	for place := range f.Members {
		member := &f.Members[place]
		end, err := member.end(member.About)
		if err != nil {
			return 0, err
		}
		member.Temporary, member.Linked, member.Holding, member.Deletable, member.ToIgnore = end.Temporary, end.Linked, end.Holding, end.Deletable, end.ToIgnore
		total = part.Sum(total, end.Bytes)
	}
	return total, nil
}
