package part

import (
	"fmt"
	"strconv"
	"strings"

	"golang.org/x/exp/slices"
)

// Versions say how a device keeps old versions of a folder's files. What its Syncthing replaces or deletes there by itself goes to these, but for directories,
// symlinks, and what becomes a conflict copy or has to give way to one. They are deleted by age and count.
type Versions struct {
	Kind  string `json:"kind"`            // VersionsNone and so on
	Place string `json:"place,omitempty"` // their directory: within the folder's, or as an absolute path; nothing where the part tells no paths, or they are kept in none
}

// How old versions are kept, in Syncthing's words.
const (
	VersionsNone      = "none"
	VersionsTrashcan  = "trashcan"
	VersionsSimple    = "simple"
	VersionsStaggered = "staggered"
	VersionsExternal  = "external" // a command takes them, of which nothing is known
)

// UsualVersions is where they are by themselves, in the folder's directory.
const UsualVersions = ".stversions"

// kindsOfVersions are all of them.
var kindsOfVersions = []string{VersionsNone, VersionsTrashcan, VersionsSimple, VersionsStaggered, VersionsExternal}

// VersionsOf says how they are kept by what is configured; nothing of a kind that isn't known. One that is to keep none of a name's versions deletes each at once.
func VersionsOf(kind, place string, params map[string]string) *Versions {
	keep, err := strconv.Atoi(params["keep"])
	switch {
	case kind == "" || kind == VersionsSimple && err == nil && keep < 1:
		return &Versions{Kind: VersionsNone}
	case kind == VersionsExternal:
		return &Versions{Kind: kind}
	case !slices.Contains(kindsOfVersions, kind) || kind == VersionsNone:
		return nil
	case place == "":
		place = UsualVersions
	}
	return &Versions{Kind: kind, Place: place}
}

// AreKept says whether they are kept in a directory.
func (v *Versions) AreKept() bool {
	return v != nil && v.Kind != VersionsNone && v.Kind != VersionsExternal
}

// WithoutPath gives the same without a place that is outside the folder's directory.
func (o *Options) WithoutPath() *Options {
	if o == nil || o.Versions == nil || isWithin(o.Versions.Place) {
		return o
	}
	hidden := *o
	hidden.Versions = &Versions{Kind: o.Versions.Kind}
	return &hidden
}

// isWithin says whether a path leads to something within a directory, by the rules of each system.
func isWithin(path string) bool {
	parts := strings.FieldsFunc(path, func(letter rune) bool { return letter == '/' || letter == '\\' })
	return !strings.ContainsAny(path, ":") && !strings.HasPrefix(path, "/") && !strings.HasPrefix(path, `\`) && !strings.HasPrefix(path, "~") && !slices.Contains(parts, "..")
}

// checkOptions says why what a folder's options are told to be is none.
func checkOptions(options *Options) error {
	if options == nil || options.Versions == nil {
		return nil
	}
	versions := options.Versions
	if !slices.Contains(kindsOfVersions, versions.Kind) || versions.Place != "" && !versions.AreKept() || len(versions.Place) > MostNameBytes {
		return fmt.Errorf("it keeps old versions as %q, of which this program doesn't know", versions.Kind)
	}
	return nil
}
