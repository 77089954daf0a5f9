// Package configured has what Syncthing's configuration says of a folder, as its config.xml and its REST API write it, for what needs none of
// Syncthing's packages.
package configured

import (
	"encoding/xml"
	"fmt"

	"golang.org/x/exp/slices"
	"syncthing-audit/part"
	"syncthing-audit/shell"
)

// Folder is what is configured of a folder.
type Folder struct {
	ID            string   `xml:"id,attr" json:"id"`
	Path          string   `xml:"path,attr" json:"path"`
	Type          string   `xml:"type,attr" json:"type"`
	IgnorePerms   bool     `xml:"ignorePerms,attr" json:"ignorePerms"`
	Paused        bool     `xml:"paused" json:"paused"`
	IgnoreDelete  bool     `xml:"ignoreDelete" json:"ignoreDelete"`
	MaxConflicts  *int     `xml:"maxConflicts" json:"maxConflicts"`
	TimeWindow    int64    `xml:"modTimeWindowS" json:"modTimeWindowS"`
	SyncOwnership bool     `xml:"syncOwnership" json:"syncOwnership"`
	SendOwnership bool     `xml:"sendOwnership" json:"sendOwnership"`
	SyncXattrs    bool     `xml:"syncXattrs" json:"syncXattrs"`
	SendXattrs    bool     `xml:"sendXattrs" json:"sendXattrs"`
	Sharing       []Device `xml:"device" json:"devices"`

	Versioning struct {
		Type   string `xml:"type,attr" json:"type"`
		Path   string `xml:"fsPath" json:"fsPath"`
		Params Params `xml:"param" json:"params"`
	} `xml:"versioning" json:"versioning"`
}

// Params are of how old versions are kept, by their keys.
type Params map[string]string

// UnmarshalXML adds one of them: config.xml has an element for each.
func (p *Params) UnmarshalXML(decoder *xml.Decoder, start xml.StartElement) error {
	one := struct {
		Key   string `xml:"key,attr"`
		Value string `xml:"val,attr"`
	}{}
	if *p == nil {
		*p = Params{}
	}
	err := decoder.DecodeElement(&one, &start)
	(*p)[one.Key] = one.Value
	return err
}

// Device is another device, or this one: of a folder that is shared with it its id alone.
type Device struct {
	ID     string `xml:"id,attr" json:"deviceID"`
	Paused bool   `xml:"paused" json:"paused"`
}

// kinds are the words of a part for types of folders.
var kinds = map[string]string{"sendreceive": "send-receive", "sendonly": "send-only", "receiveonly": "receive-only"}

// IsEncrypted says whether it is encrypted on the device, which is an untrusted one.
func (f *Folder) IsEncrypted() bool { return f.Type == "receiveencrypted" }

// Tell has a part say what is configured of a folder, where these are the devices of the same configuration. One that is encrypted there isn't read.
func (f *Folder) Tell(of *part.Folder, devices []Device) error {
	kind, is := kinds[f.Type]
	if !is || f.MaxConflicts == nil {
		return fmt.Errorf("the folder is of type %s, which this program doesn't read", shell.Quoted(f.Type))
	}
	of.Kind, of.IgnoresPermissions = kind, f.IgnorePerms
	of.Options = &part.Options{MaxConflicts: *f.MaxConflicts, IgnoresDeletions: f.IgnoreDelete,
		Versions: part.VersionsOf(f.Versioning.Type, f.Versioning.Path, f.Versioning.Params)}
	of.ScansAttributes = f.SyncOwnership || f.SendOwnership || f.SyncXattrs || f.SendXattrs
	if f.TimeWindow > 0 && f.TimeWindow < 1<<31 {
		of.TimeWindow = f.TimeWindow
	}
	of.PausedDevices = f.pausedOf(devices)
	return nil
}

// pausedOf gives those devices that the folder is shared with, and that are paused.
func (f *Folder) pausedOf(devices []Device) []string {
	var paused []string
	for _, device := range devices {
		if device.Paused && f.IsSharedWith(device.ID) {
			paused = append(paused, device.ID)
		}
	}
	return paused
}

// IsSharedWith says whether the folder is shared with a device.
func (f *Folder) IsSharedWith(id string) bool {
	return slices.IndexFunc(f.Sharing, func(device Device) bool { return device.ID == id }) >= 0
}
