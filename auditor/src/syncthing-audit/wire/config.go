package wire

import (
	"bytes"
	"errors"
	"fmt"

	"github.com/syncthing/syncthing/lib/protocol"
	"golang.org/x/exp/slices"
	"google.golang.org/protobuf/encoding/protowire"
	"syncthing-audit/limits"
	"syncthing-audit/message"
)

// Folder is what a device says of a folder in its ClusterConfig.
type Folder struct {
	ID                 string
	Label              string
	SendOnly           bool
	ReceiveOnly        bool // as Syncthing 2 says it; older ones don't
	OtherType          bool // it is of a type of which nothing is known here
	IgnoresPermissions bool
	Paused             bool
	Devices            []Sharing // itself and the observer, too

	tokens map[protocol.DeviceID][]byte // of passwords
}

// Sharing is a device that a folder is shared with, and what the device that says so has of its index.
type Sharing struct {
	Device    protocol.DeviceID
	Name      string
	IndexID   uint64
	Sequence  int64 // the highest one that it has
	Encrypted bool  // it has a password's token, so the folder is encrypted there
}

// Of gives what the folder's device has of a device's index.
func (f *Folder) Of(device protocol.DeviceID) (Sharing, bool) {
	for _, sharing := range f.Devices {
		if sharing.Device == device {
			return sharing, true
		}
	}
	return Sharing{}, false
}

// The numbers of the fields of a ClusterConfig, of its folders and of their devices (BEP, 'Fields (Cluster Config)').
const (
	configFolder protowire.Number = 1

	folderID                 protowire.Number = 1
	folderLabel              protowire.Number = 2
	folderType               protowire.Number = 3 // up to 1.29 it says whether the folder only sends
	folderIgnoresPermissions protowire.Number = 4
	folderNoTemporary        protowire.Number = 6
	folderPaused             protowire.Number = 7
	folderDevice             protowire.Number = 16

	deviceID       protowire.Number = 1
	deviceName     protowire.Number = 2
	deviceSequence protowire.Number = 6
	deviceIndexID  protowire.Number = 8
	deviceToken    protowire.Number = 10
)

// foldersIn gives what a ClusterConfig says of these folders or, where none is asked for, of all, each once. Others take no room.
func foldersIn(config []byte, asked []string, limits *Limits) ([]*Folder, error) {
	folders, isTaken := []*Folder{}, map[string]bool{}
	err := message.Each(config, func(field message.Field) error {
		if field.Number != configFolder {
			return nil
		}
		id, err := idIn(field.Text)
		if err != nil || isTaken[id] || len(asked) > 0 && !slices.Contains(asked, id) {
			return err
		}
		if len(folders) == limits.Folders {
			return fmt.Errorf("%w: over %d", TooManyFolders, limits.Folders)
		}
		isTaken[id] = true
		folder, err := folderOf(field.Text, limits.Devices)
		folders = append(folders, folder)
		return err
	})
	if err != nil {
		return nil, badly("its ClusterConfig", err)
	}
	return folders, nil
}

// longestFolderID is more than any folder's id has: Syncthing takes one of any length from a person.
const longestFolderID = 1024

// idIn gives the id of the folder that a message is on: in each of them it is the first field.
func idIn(text []byte) (string, error) {
	id := ""
	err := message.Each(text, func(field message.Field) error {
		if field.Number != folderID {
			return nil
		}
		if len(field.Text) > longestFolderID || bytes.IndexByte(field.Text, 0) >= 0 {
			return fmt.Errorf("%w: a folder's id of %d bytes", BadMessage, len(field.Text))
		}
		id = string(field.Text)
		return nil
	})
	return id, err
}

// The types of folders, as Syncthing 2 numbers them. Older ones say the first two.
const (
	typeSendOnly         = 1
	typeReceiveOnly      = 2
	typeReceiveEncrypted = 3 // a password's token says that, too
)

// takeType takes of which type a folder is.
func (f *Folder) takeType(value uint64) {
	f.SendOnly, f.ReceiveOnly = value == typeSendOnly, value == typeReceiveOnly
	f.OtherType = value > typeReceiveEncrypted
}

// folderOf reads what is said of a folder, and of its devices, each once.
func folderOf(text []byte, most int) (*Folder, error) {
	folder, count := &Folder{}, 0
	err := message.Each(text, func(field message.Field) error {
		switch field.Number {
		case folderID:
			folder.ID = string(field.Text)
		case folderLabel:
			folder.Label = limits.Cut(string(field.Text))
		case folderType:
			folder.takeType(field.Value)
		case folderIgnoresPermissions:
			folder.IgnoresPermissions = field.Value != 0
		case folderPaused:
			folder.Paused = field.Value != 0
		case folderDevice:
			if count++; count > most {
				return fmt.Errorf("%w: over %d", TooManyDevices, most)
			}
			sharing, token, err := sharingOf(field.Text)
			if _, isTaken := folder.Of(sharing.Device); isTaken {
				return err
			}
			folder.Devices = append(folder.Devices, sharing)
			if sharing.Encrypted {
				if folder.tokens == nil {
					folder.tokens = map[protocol.DeviceID][]byte{}
				}
				folder.tokens[sharing.Device] = token
			}
			return err
		}
		return nil
	})
	return folder, err
}

// longestToken is more than any token has: a folder's id with a few bytes.
const longestToken = 2 * longestFolderID

// sharingOf reads what is said of a folder's device, and the token of its password.
func sharingOf(text []byte) (sharing Sharing, token []byte, err error) {
	err = message.Each(text, func(field message.Field) error {
		switch field.Number {
		case deviceID:
			device, err := protocol.DeviceIDFromBytes(field.Text)
			sharing.Device = device
			return err
		case deviceName:
			sharing.Name = limits.Cut(string(field.Text))
		case deviceSequence:
			sharing.Sequence = int64(field.Value)
		case deviceIndexID:
			sharing.IndexID = field.Value
		case deviceToken:
			if len(field.Text) > longestToken {
				return fmt.Errorf("%w: a password's token of %d bytes", BadMessage, len(field.Text))
			}
			sharing.Encrypted, token = len(field.Text) > 0, append([]byte(nil), field.Text...)
		}
		return nil
	})
	switch {
	case err != nil:
	case sharing.Device == protocol.EmptyDeviceID: // it has no letters, by which a device is told
		err = errors.New("a device without an id")
	case sharing.Sequence < 0:
		err = fmt.Errorf("a highest sequence of %d", sharing.Sequence)
	}
	return sharing, token, err
}

// badly says that a message can't be read, unless the error is a refusal already.
func badly(what string, err error) error {
	var refusal Refusal
	if errors.As(err, &refusal) {
		return err
	}
	return fmt.Errorf("%w: %s: %v", BadMessage, what, err)
}
