// Package glance has what stood on a device's disk when it was walked first, and compares that with what is told of it later.
package glance

import (
	"bufio"
	"errors"
	"io"
	"os"
	"strconv"
	"strings"

	"syncthing-audit/disk"
	"syncthing-audit/part"
)

// Glance is what stood on a device's disk at one look, before its files are hashed. It has each name with its mark, in a
// file of its own for each folder.
type Glance struct {
	Folders []*os.File // by their places
}

// markOfUnread is that of a name of which nothing can be told.
const markOfUnread = "unread"

// beforeDamaged stands before why the disk fails to give a name, and beforeBelow before why it fails to give what is below one.
const (
	beforeDamaged = "damaged "
	beforeBelow   = "below "
)

// beforeIgnored stands before the mark of a directory that .stignore ignores. The index says whether the folder has it all the same.
const beforeIgnored = "ignored "

// Close takes the files away.
func (g *Glance) Close() {
	for _, file := range g.Folders {
		file.Close()
	}
}

// Writer writes what stands in a folder, name by name.
type Writer struct{ to *bufio.Writer }

// NewWriter writes into a file.
func NewWriter(file *os.File) *Writer { return &Writer{bufio.NewWriter(file)} }

// Take writes what was found. Of what .stignore ignores, only directories are to be written.
func (w *Writer) Take(found disk.Found, isIgnored bool) error {
	mark := found.Node.Mark()
	if found.Node == nil {
		mark = markOfUnread
	}
	if out := found.Out; out != nil && out.Kind == part.Damaged {
		mark = beforeDamaged + out.Why
		if out.Below {
			mark = beforeDamaged + beforeBelow + out.Why
		}
	}
	if isIgnored {
		mark = beforeIgnored + mark
	}
	_, err := w.to.WriteString(strconv.Quote(found.Name) + "\n" + strconv.Quote(mark) + "\n")
	return err
}

// Flush writes what is left.
func (w *Writer) Flush() error { return w.to.Flush() }

// glanced is a name that is read back.
type glanced struct{ name, mark string }

// comparing compares the lines of a device with a glance at its disk.
type comparing struct {
	glance *Glance
	folder int // the place of the next folder
	from   *bufio.Reader
	next   *glanced // not taken yet
	added  int64    // names that were gone when their turn came
	sink   part.Sink
}

// Compare gives a sink for the lines of the device. It gives a name on as one that moved, if its disk isn't what it was at
// the glance.
func (g *Glance) Compare(sink part.Sink) part.Sink {
	return (&comparing{glance: g, sink: sink}).take
}

func (c *comparing) take(line part.Line) error {
	switch {
	case line.Begin != nil:
		c.from = bufio.NewReader(c.glance.Folders[c.folder])
		c.folder++
		c.added = 0
		if err := c.read(); err != nil {
			return err
		}
	case line.Name != nil:
		if err := c.gone(string(line.Name.Name)); err != nil {
			return err
		}
		line.Name = WithoutChanging(line.Name)
		return c.name(line)
	case line.End != nil:
		if err := c.gone(""); err != nil {
			return err
		}
		line.End.Names += c.added
	}
	return c.sink(line)
}

// read reads the next name of the glance.
func (c *comparing) read() error {
	c.next = nil
	read := &glanced{}
	for _, into := range []*string{&read.name, &read.mark} {
		text, err := c.from.ReadString('\n')
		if errors.Is(err, io.EOF) && text == "" && into == &read.name {
			return nil
		}
		if err != nil {
			return err
		}
		if *into, err = strconv.Unquote(text[:len(text)-1]); err != nil {
			return err
		}
	}
	c.next = read
	return nil
}

// gone gives on names of the glance that stand before this one, or all where it is empty. A directory that is ignored and gone, and that no index
// has, isn't the folder's.
func (c *comparing) gone(before string) error {
	for c.next != nil && (before == "" || c.next.name < before) {
		if !strings.HasPrefix(c.next.mark, beforeIgnored) {
			c.added++
			if err := c.sink(part.Line{Name: goneOf(*c.next)}); err != nil {
				return err
			}
		}
		if err := c.read(); err != nil {
			return err
		}
	}
	return nil
}

// name gives on a name.
func (c *comparing) name(line part.Line) error {
	mark := ""
	if c.next != nil && c.next.name == string(line.Name.Name) {
		mark = strings.TrimPrefix(c.next.mark, beforeIgnored)
		if err := c.read(); err != nil {
			return err
		}
	}
	lost, name := lostOf(mark), line.Name
	isUnread := mark == markOfUnread && name.Disk == nil && len(name.Out) > 0
	switch {
	case name.IsIgnored() || name.IsDamaged() || len(name.Moved) > 0 || isUnread:
	case lost != nil:
		told := *name
		told.Out = append(append([]part.LeftOut(nil), name.Out...), *lost)
		line.Name = &told
	case name.Disk.Mark() != mark:
		line.Name = &part.Name{Name: name.Name, Moved: []string{part.MovedDisk}}
	}
	return c.sink(line)
}

// WithoutChanging gives a name that was changing while it was read, or that waits for a scan, as one that moved.
func WithoutChanging(name *part.Name) *part.Name {
	if name.IsIgnored() {
		return name
	}
	for _, out := range name.Out {
		switch {
		case out.Kind == part.Changing && out.Why == disk.ErrChanged.Error():
			return &part.Name{Name: name.Name, Moved: []string{part.MovedDisk}}
		case out.Kind == part.Changing:
			return &part.Name{Name: name.Name, Moved: []string{part.MovedViews}}
		case out.Kind == part.Rescan:
			return &part.Name{Name: name.Name, Moved: []string{part.MovedUnscanned}}
		}
	}
	return name
}

// lostOf gives what the disk failed to give at the glance, by its mark; nothing where it gave all. Nobody's change does that, so such a name isn't in motion.
func lostOf(mark string) *part.LeftOut {
	why := strings.TrimPrefix(mark, beforeDamaged)
	if why == mark {
		return nil
	}
	below := strings.TrimPrefix(why, beforeBelow)
	return &part.LeftOut{Kind: part.Damaged, Why: below, Below: below != why}
}

// goneOf gives a name that was gone when its turn came.
func goneOf(glanced glanced) *part.Name {
	if lost := lostOf(glanced.mark); lost != nil {
		return &part.Name{Name: part.Bytes(glanced.name), Out: []part.LeftOut{*lost}}
	}
	return &part.Name{Name: part.Bytes(glanced.name), Moved: []string{part.MovedDisk}}
}
