package ownpart

import (
	"io"

	"github.com/syncthing/syncthing/lib/config"
	"syncthing-audit/commandline"
	"syncthing-audit/device"
	"syncthing-audit/inputs"
	"syncthing-audit/outside"
	"syncthing-audit/part"
	"syncthing-audit/target"
)

// TellAbout writes what a device is configured to share: no index and no file is read for that. 'run' asks it of all devices
// before any of them hashes its files, so it is known by then which folder's disk isn't mounted. An index that isn't found is refused. A folder
// that is asked for needn't be there: another device may have it.
func TellAbout(asked commandline.Options, write target.Writing, log io.Writer) error {
	id, about, err := device.About(asked.Homes[0], asked.Maps[0]...)
	if err != nil {
		return err
	}
	home := &device.Home{ID: id, Config: about}
	if err := CheckFolders(home, nil, io.Discard); err != nil {
		return err
	}
	if _, err := findIndex(asked, log); err != nil {
		return err
	}
	if err := device.CheckIndex(asked.Homes[0], asked.Data[0]); err != nil {
		return err
	}
	if err := checkOutput(asked, about.Folders); err != nil {
		return err
	}
	if asked.Rescan {
		if err := checkScannable(about, asked); err != nil {
			return err
		}
	}
	return write(func(to io.Writer) error { return outside.PrintJSON(to, AboutOf(home, asked.Folders, asked.Paths)) })
}

// AboutOf gives the head of a device's part, as far as its configuration says it.
func AboutOf(home *device.Home, wanted []string, withPaths bool) *part.Head {
	head := &part.Head{Version: part.FirstVersion, Device: home.ID.String(), Name: home.Name(), Folders: []part.Folder{}, Waits: true, Tells: true, Others: inputs.Others(home, wanted, withPaths)}
	for _, shared := range inputs.Chosen(home.Config, wanted) {
		folder := part.Folder{ID: shared.ID, Label: shared.Label, Directory: home.ID.String() + shared.ID, Sharing: home.Sharing(shared)}
		if shared.Type == config.FolderTypeReceiveEncrypted {
			folder.Kind = part.KindEncrypted
		}
		head.Folders = append(head.Folders, folder)
	}
	return head
}
