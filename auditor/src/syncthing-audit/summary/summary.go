// Package summary has what an audit found as a person asks for it. There is one entry a file. It says what is wrong on
// which device, who has the recorded bytes, and what to do. Its JSON is auditor/audit.schema.json.
package summary

import (
	"io"
	"strings"
	"time"

	"syncthing-audit/choice"
	"syncthing-audit/finding"
	"syncthing-audit/history"
	"syncthing-audit/join"
	"syncthing-audit/lists"
	"syncthing-audit/outlook"
	"syncthing-audit/outside"
	"syncthing-audit/part"
	"syncthing-audit/print"
	"syncthing-audit/shell"
)

// Version is the version of the JSON.
const Version = 2

// Verdicts.
const (
	InStep    = "in-step"
	AsFar     = "in-step-as-far-as-audited"
	NotInStep = "not-in-step"
)

// Summary is what was found in all folders.
type Summary struct {
	Version     int        `json:"version"`
	Verdict     string     `json:"verdict"`
	Firm        Firm       `json:"firm"`
	Devices     []Device   `json:"devices"`
	First       []First    `json:"first"` // what is to be done before all that entries tell
	Folders     []*Folder  `json:"folders"`
	LeftOut     []LeftOut  `json:"left_out"`          // devices, and folders as a whole
	Earlier     []LeftOut  `json:"earlier,omitempty"` // devices whose parts are of an earlier moment than others
	NotAsked    []NotAsked `json:"not_asked"`         // folders of these devices
	NotTold     []string   `json:"not_told"`          // devices whose parts don't say which folders they haven't
	NotCompared []string   `json:"not_compared"`

	Observers []join.Observer `json:"observers,omitempty"` // devices that share a folder, keep no files of it, and weren't asked
	Since     *history.Since  `json:"since,omitempty"`     // what a history says beside the answer
	isByName  bool            // whether the folders were asked for by their ids
	overWire  map[string]bool // devices that were asked over the wire
	byNames   bool            // whether the names were asked for by how they begin
	actions   *actions
}

// Device is a device that was audited.
type Device struct {
	ID   string    `json:"id"`
	Name string    `json:"name"`
	Read time.Time `json:"read"` // when its files were read
	From string    `json:"from"`
	Runs string    `json:"syncthing,omitempty"` // the version that was started there last

	Prefix Text        `json:"names_that_begin,omitempty"` // only these were read
	Slice  *Slice      `json:"slice,omitempty"`            // only these were read
	Index  *part.Index `json:"index,omitempty"`            // what may be amiss with it
	Newer  *part.Newer `json:"newer_index,omitempty"`
	Repair bool        `json:"index_to_repair,omitempty"`

	IsUnsigned bool `json:"not_signed,omitempty"` // its part's signature wasn't checked

	asked choice.Names
}

// Slice says of which slice names are, and of how many.
type Slice struct {
	Number int `json:"number"`
	Of     int `json:"of"`
}

func sliceOf(names choice.Names) *Slice {
	if !names.IsOfSlice() {
		return nil
	}
	return &Slice{names.Slice, names.Slices}
}

// Folder is what was found in a folder.
type Folder struct {
	ID      string             `json:"id"`
	Label   string             `json:"label"`
	Verdict string             `json:"verdict"`
	Names   int64              `json:"names"`
	Deleted int64              `json:"deleted"`
	Going   int64              `json:"being_deleted"`
	Bytes   int64              `json:"bytes_hashed"`
	Devices []Member           `json:"devices"`
	Wrong   int64              `json:"names_wrong"`                    // files, directories and symlinks that keep the folder from being in step
	Unread  int64              `json:"names_not_read_again,omitempty"` // of these what a history alone has as wrong: nobody read it since
	Files   []*File            `json:"files"`
	Groups  []*Group           `json:"groups"`
	Copies  []finding.Conflict `json:"conflict_copies"`
	LeftOut []*finding.LeftOut `json:"left_out"`
	MoreOut Count              `json:"left_out_unlisted"`
	More    Count              `json:"conflict_copies_unlisted"`
	Ignored Count              `json:"ignored"`
	Own     bool               `json:"not_shared,omitempty"`      // its one device shares it with nobody: it was compared with that one's own index
	IsOut   bool               `json:"left_out_device,omitempty"` // its one device is left out of what is compared: it was compared with that one's own index
	off     []part.Sharing     // devices that share it and aren't audited in it
	modes   int64              // names of which the permissions alone differ, which don't count for the verdict
	isApart bool               // whether other devices have theirs of this id, which they share with nobody, too
	Live    *finding.Live      `json:"live,omitempty"` // of devices that were looked at while they ran, or whose parts are of different moments
	unseen  *finding.Waiting   // what waits for a scan at devices that send what it finds
	Firm    Firm               `json:"firm"`
	Loose   int64              `json:"names_not_firm"`           // that keep a folder in step from being firm
	NotFirm []Loose            `json:"not_firm"`                 // the first of these names
	Unsure  []finding.Unsure   `json:"not_known_firm,omitempty"` // what may change a folder in step that is otherwise firm

	Converging finding.Converging `json:"converging,omitempty"`     // of a folder not in step: whether its records lead to one end
	Hindrance  *Hindrance         `json:"not_converging,omitempty"` // the first thing that hinders it, in syncaudit's words
	Pairs      *int64             `json:"pairs_to_come,omitempty"`  // of a name and a device, in a folder that converges

	Outlook *outlook.Outlook `json:"outlook"` // what happens if nobody does anything
}

// Member is a device that shares a folder.
type Member struct {
	Device string `json:"device"`
	Kind   string `json:"kind"`
	Path   string `json:"path,omitempty"`   // where the part tells it
	Marker string `json:"marker,omitempty"` // by which Syncthing knows the directory, where that isn't the usual one

	Indexed       int64    `json:"names_in_index,omitempty"` // whichever were asked for
	Paused        bool     `json:"paused,omitempty"`
	PausedDevices []string `json:"paused_devices,omitempty"` // others, by their ids
	Writers       []string `json:"writers,omitempty"`        // what else of Syncthing writes into the directory
	Window        int64    `json:"time_window,omitempty"`    // in seconds
	Near          int64    `json:"near_times,omitempty"`     // files with other times than recorded within that
	Rest          string   `json:"syncthing_is,omitempty"`   // of two looks: how Syncthing was seen between them
	Temporary     *Count   `json:"temporary,omitempty"`      // names that Syncthing takes for its temporary files, where there are any

	Versions *part.Versions `json:"old_versions,omitempty"` // how they are kept, where the part says it

	Wanted   *Wanted   `json:"syncthing_needs,omitempty"` // by its own words, where an observer asked it
	OverWire *OverWire `json:"over_the_wire,omitempty"`   // what isn't seen of a device that was asked over the wire
}

func memberOf(member join.Member) Member {
	told := Member{Device: member.Head.Device, Kind: kindOf(member), OverWire: overWireOf(member)}
	if member.About != nil {
		told.Path, told.Indexed, told.Paused, told.PausedDevices = member.About.Path, member.About.Indexed, member.About.Paused, member.About.PausedDevices
		told.Marker, told.Writers, told.Window, told.Near = member.About.Marker, member.About.Writers, member.About.TimeWindow, member.Near
		if member.About.Options != nil {
			told.Versions = member.About.Options.Versions
		}
		if member.About.Rest != nil {
			told.Rest = member.About.Rest.State
			if wanted := member.About.Rest.Wanted; wanted != nil {
				told.Wanted = &Wanted{wanted.Names, wanted.Bytes, wanted.Errors, wanted.First}
			}
		}
	}
	if member.Temporary != nil && member.Temporary.Names > 0 {
		told.Temporary = member.Temporary
	}
	return told
}

// Count is of names that aren't listed: of those that .stignore keeps out of the folder everywhere, or of further ones.
type Count = part.Count

// LeftOut is a device that was left out of a folder, or a folder as a whole.
type LeftOut = finding.Refusal

// called names what was left out for a person: a device of a folder, a folder as a whole, or a device whose folders aren't known.
func called(left LeftOut) string {
	switch {
	case left.Folder == "":
		return left.Device
	case left.Device == "":
		return shell.Folder(left.Folder, left.Label)
	}
	return shell.Folder(left.Folder, left.Label) + " of " + left.Device
}

// notCompared is what no audit compares.
var notCompared = []string{"owners", "extended attributes", "old versions"}

// Of gives the summary of an answer.
func Of(answer *finding.Answer) *Summary {
	_, first := answer.First()
	summary := &Summary{Version: Version, Verdict: verdictOf(first != nil, answer.IsPartial()), Firm: answer.HowFirm(), Devices: []Device{}, Folders: []*Folder{}, LeftOut: append([]LeftOut{}, answer.LeftOut...), Earlier: answer.Earlier,
		NotAsked: []NotAsked{}, NotTold: []string{}, NotCompared: notCompared, Observers: answer.Observers, isByName: answer.IsByName, byNames: answer.ByNames, overWire: map[string]bool{}}
	asked := askedOf(answer)
	for _, device := range answer.Devices {
		names := asked[device.ID]
		summary.Devices = append(summary.Devices, Device{device.ID, device.Name, device.Made, device.From, device.Runs, Text(names.Prefix), sliceOf(names), device.Index, device.Newer, device.ToRepair, device.IsUnsigned, names})
		for _, unasked := range device.Unasked {
			summary.NotAsked = append(summary.NotAsked, NotAsked{unasked.ID, unasked.Label, device.ID, unasked.InPart})
		}
		if device.IsSilent {
			summary.NotTold = append(summary.NotTold, device.ID)
		}
		summary.overWire[device.ID] = device.OverWire
	}
	named := summary.Called()
	summary.actions = &actions{safe: map[string]bool{}, wrong: map[wrongAt]*First{}, waits: map[string]*waiting{}}
	names := []*folding{}
	for _, folder := range answer.Folders {
		all := &folding{named: named, going: going{}, off: offOf(folder), to: summary.actions, name: shell.Folder(folder.ID, folder.Label), held: folder.Names - folder.Deleted}
		summary.Folders, names = append(summary.Folders, folderOf(answer, folder, all)), append(names, all)
	}
	for place, folder := range summary.Folders { // what is told of one name depends on what is told of all others
		folder.Files, folder.Groups = names[place].end()
	}
	summary.First = summary.firstOf(named)
	return summary
}

// shortOf gives as much of an id as tells devices of one name apart.
func shortOf(id string) string { return string(lists.AtMost(7, []byte(id))) }

// alikeOf gives what a person takes for the same name.
func alikeOf(name string) string { return strings.ToLower(strings.Join(strings.Fields(name), " ")) }

// isList says whether a name may be read as several, or as one with an id.
func isList(name string) bool {
	return strings.ContainsAny(name, ",;:()") || strings.Contains(name, " and ")
}

// Called gives each device's name for a person: the configured one, with the id's beginning where it may be taken for another one's. Each device chooses its
// own name.
func (s *Summary) Called() print.Names {
	count, named := map[string]int{}, map[string]string{}
	for _, device := range s.Devices {
		count[alikeOf(shortOf(device.ID))]++
		count[alikeOf(device.Name)]++
	}
	for _, device := range s.Devices {
		named[device.ID] = shell.Printable(device.Name)
		if device.Name == "" {
			named[device.ID] = shortOf(device.ID)
		} else if count[alikeOf(device.Name)] > 1 || isList(device.Name) {
			named[device.ID] += " (" + shortOf(device.ID) + ")"
		}
	}
	return func(id string) string {
		if name := named[id]; name != "" {
			return name
		}
		return id
	}
}

func verdictOf(hasFailures, isPartial bool) string {
	switch {
	case hasFailures:
		return NotInStep
	case isPartial:
		return AsFar
	}
	return InStep
}

// folderOf gives the summary of a folder, but for what is told of its names, which it puts there.
func folderOf(answer *finding.Answer, from *finding.Folder, all *folding) *Folder {
	folder := &Folder{Outlook: &outlook.Outlook{}, ID: from.ID, Label: from.Label, Own: from.Own != "" && !from.IsOut, IsOut: from.IsOut, isApart: answer.IsApart(from), off: all.off, Verdict: verdictOf(from.HasFailures(), answer.IsPart(from)), Names: from.Names, Deleted: from.Deleted, Going: from.Deleting, Bytes: from.Bytes,
		Devices: lists.Each(from.Members, memberOf), Files: []*File{}, Groups: []*Group{}, Copies: append([]finding.Conflict{}, from.Conflicts...), LeftOut: append([]*finding.LeftOut{}, from.LeftOut...), Ignored: from.Outside, MoreOut: from.Unlisted.LeftOut, More: from.Unlisted.Conflicts}
	if from.Outlook != nil {
		*folder.Outlook = *from.Outlook
	}
	foretell, older := foreteller(folder, all.named), versions(all.named, folder)
	from.EachName(func(told *finding.Told) {
		file := fileOf(from, told)
		file.isOfSum, file.foretold, file.versions = answer.IsSum, foretell(told.Name), older
		all.take(file)
		if len(file.withoutSteps()) > 0 {
			folder.Outlook.AddWithoutSteps(told.Name)
		} else if file.isToDecide() {
			folder.Outlook.ToDecide++
		}
	})
	folder.Wrong, folder.modes = all.wrong, all.modes
	all.to.noteWaiting(from)
	folder.Live, folder.unseen = from.Live, unseenIn(from)
	folder.Firm = from.HowFirm()
	folder.Loose, folder.NotFirm = looseOf(from)
	folder.Unsure = unsureOf(from)
	folder.Converging, folder.Hindrance = answer.HowConverging(from), hindranceOf(from)
	if folder.Converging == finding.Converges {
		folder.Pairs = from.Convergence.Pairs
	}
	return folder
}

func devicesIn(folder *Folder) []string {
	return lists.Each(folder.Devices, func(member Member) string { return member.Device })
}

// askedOf gives, for each device, which names were read of it.
func askedOf(answer *finding.Answer) map[string]choice.Names {
	asked := map[string]choice.Names{}
	for _, folder := range answer.Folders {
		for _, member := range folder.Members {
			asked[member.Head.Device] = member.Head.Names
		}
	}
	return asked
}

// WriteJSON writes a summary for programs, on one line. auditor/audit.schema.json is its schema.
func (s *Summary) WriteJSON(to io.Writer) error {
	return outside.PrintJSON(to, s)
}
