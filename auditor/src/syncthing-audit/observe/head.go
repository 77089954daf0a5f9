package observe

import (
	"errors"
	"sort"
	"time"

	"github.com/syncthing/syncthing/lib/protocol"
	"syncthing-audit/part"
	"syncthing-audit/wire"
)

// head gives the head of a device's part. Of its other folders a device tells nothing, but of those that it shares with the observer.
func (d *Device) head(asked Asked, observer protocol.DeviceID, look string, devices []*Device) *part.Head {
	head := &part.Head{Device: d.ID.String(), Name: d.Hello.Name, Runs: d.Hello.Version, Made: time.Now().UTC().Truncate(time.Second), Names: asked.Names,
		Look: &part.Look{Home: "over the wire", ID: look, After: map[string]string{}, At: d.first, Ended: d.again},
		Wire: part.NewWire(observer.String(), asked.Records)}
	head.Wire.Half, head.Wire.IsPartial = d.Half, asked.Chosen != nil
	for _, folder := range d.Folders {
		head.Folders = append(head.Folders, folder.head(observer))
		if folder.wentBack > head.Wire.WentBackFrom {
			head.Wire.WentBackFrom = folder.wentBack
		}
	}
	for id, why := range d.Out {
		head.Wire.Without = append(head.Wire.Without, part.Without{Folder: id, Why: why.Error(), IsEncrypted: errors.Is(why, wire.EncryptedFolder)})
	}
	sort.Slice(head.Wire.Without, func(a, b int) bool { return head.Wire.Without[a].Folder < head.Wire.Without[b].Folder })
	for _, device := range devices {
		head.Look.After[device.ID.String()] = look
	}
	if head.IsAsked() && len(head.Folders) > 0 {
		head.Wire.WithoutAsked()
	}
	head.Version = head.DueVersion()
	return head
}

// head gives what a part says of a folder at a device. Its own index is that of both looks. What it has of others is that of the first look, and Heard
// is what it had at the second one.
func (f *Folder) head(observer protocol.DeviceID) part.Folder {
	folder := part.Folder{ID: f.said.ID, Label: f.said.Label, Kind: f.kind(), Directory: "over the wire: " + f.of.String(), IndexID: f.index.ID, Max: f.since.Highest,
		IgnoresPermissions: f.said.IgnoresPermissions, Sharing: []part.Sharing{}, Views: []part.View{}, Indexed: f.names, WentBackFrom: f.wentBack, IsOpened: f.isOpened}
	for _, sharing := range f.said.Devices {
		if sharing.Device == f.of || sharing.Device == observer {
			continue
		}
		folder.Sharing = append(folder.Sharing, part.Sharing{Device: sharing.Device.String(), Name: sharing.Name, Encrypted: sharing.Encrypted})
		if sharing.IndexID != 0 {
			folder.Views = append(folder.Views, f.view(sharing))
		}
	}
	sort.Slice(folder.Sharing, func(a, b int) bool { return folder.Sharing[a].Device < folder.Sharing[b].Device })
	sort.Slice(folder.Views, func(a, b int) bool { return folder.Views[a].Device < folder.Views[b].Device })
	if f.told != nil { // it fits, as Tell saw
		_ = folder.TakeConfigured(f.told)
	}
	return folder
}

// view gives what the device has of another one's index.
func (f *Folder) view(of wire.Sharing) part.View {
	view := part.View{Device: of.Device.String(), IndexID: of.IndexID, Max: of.Sequence}
	if later, is := f.heard.Of(of.Device); is && later.IndexID == of.IndexID {
		view.Heard = later.Sequence
	}
	return view
}

// kind gives a folder's kind, as far as it is seen: that a folder only receives shows by its local changes alone.
func (f *Folder) kind() string {
	if f.said.SendOnly {
		return "send-only"
	}
	if f.said.ReceiveOnly || f.isReceiver || f.isOpened { // an untrusted device sends nothing of its own
		return "receive-only"
	}
	return "send-receive"
}
