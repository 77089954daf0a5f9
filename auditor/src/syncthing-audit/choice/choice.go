// Package choice says which of the folders' names were asked for.
package choice

import (
	"fmt"
	"strings"

	"syncthing-audit/shell"
)

// Names says which names were asked for, in each folder: all, those that begin with some bytes, those of one slice, or those of both.
type Names struct {
	Prefix string `json:"prefix,omitempty"` // only names that begin so
	Slice  int    `json:"slice,omitempty"`  // only names of this slice, from 1
	Slices int    `json:"slices,omitempty"` // of so many, at least 2; 0 where names of all slices were asked for
}

// IsAll says whether all names were asked for.
func (n Names) IsAll() bool { return n == Names{} }

// IsOfSlice says whether only names of one slice were asked for.
func (n Names) IsOfSlice() bool { return n.Slices > 0 }

// Has says whether a name of a folder was asked for. This is the one place that decides it.
func (n Names) Has(folder, name string) bool {
	return strings.HasPrefix(name, n.Prefix) && (!n.IsOfSlice() || sliceOf(folder, name, n.Slices) == n.Slice)
}

// IsPast says whether no name from this one on was asked for.
func (n Names) IsPast(name string) bool {
	return name > n.Prefix && !strings.HasPrefix(name, n.Prefix)
}

// MayHold says whether names below a directory may have been asked for. A directory and what is below it are of slices of their own.
func (n Names) MayHold(directory string) bool {
	below := directory + "/"
	return strings.HasPrefix(below, n.Prefix) || strings.HasPrefix(n.Prefix, below)
}

// Flags gives the words of a command line that ask for these names.
func (n Names) Flags() []string {
	words := []string{}
	if n.Prefix != "" {
		words = append(words, "--names", n.Prefix)
	}
	if n.IsOfSlice() {
		words = append(words, "--slice", n.slice())
	}
	return words
}

// Command gives these words as a shell reads them.
func (n Names) Command() string { return shell.Words(n.Flags()) }

// Unlike gives the flags by which other names were asked for than these.
func (n Names) Unlike(other Names) string {
	flags := []string{}
	if n.Prefix != other.Prefix {
		flags = append(flags, "--names")
	}
	if n.Slice != other.Slice || n.Slices != other.Slices {
		flags = append(flags, "--slice")
	}
	return strings.Join(flags, " and ")
}

// Words says which names these are.
func (n Names) Words() string {
	words := "all names"
	if n.Prefix != "" {
		words = "the names that begin with " + shell.Quoted(n.Prefix)
	}
	if n.IsOfSlice() {
		words = n.SliceWords() + " of " + words
	}
	return words
}

// SliceWords says of which slice the names are.
func (n Names) SliceWords() string { return fmt.Sprintf("slice %d of %d", n.Slice, n.Slices) }

// None says that there is no such name, in some place or, without one, anywhere.
func (n Names) None(place string) string {
	begins := "begins with " + shell.Quoted(n.Prefix)
	switch {
	case !n.IsOfSlice():
		return "no name" + place + " " + begins
	case n.Prefix == "":
		return "no name" + place + " is in " + n.SliceWords()
	}
	return "no name" + place + " that " + begins + " is in " + n.SliceWords()
}

// Others says which names weren't asked for, where some weren't.
func (n Names) Others() string {
	words := []string{}
	if n.Prefix != "" {
		words = append(words, "names that don't begin with "+shell.Quoted(n.Prefix))
	}
	if n.IsOfSlice() {
		words = append(words, "names outside "+n.SliceWords())
	}
	return strings.Join(words, ", and ")
}
