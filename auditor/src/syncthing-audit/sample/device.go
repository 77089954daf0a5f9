package main

import (
	"os"
	"path/filepath"

	"github.com/syncthing/syncthing/lib/config"
	"github.com/syncthing/syncthing/lib/db"
	"github.com/syncthing/syncthing/lib/db/backend"
	"github.com/syncthing/syncthing/lib/events"
	"github.com/syncthing/syncthing/lib/protocol"
	"github.com/syncthing/syncthing/lib/tlsutil"
)

// folderID is the id of the one folder.
const folderID = "docs"

// device is a device that is made.
type device struct {
	home, files string
	id          protocol.DeviceID
	backend     backend.Backend
	set         *db.FileSet
}

// newDevice makes a home with a certificate and an empty index, and a folder's directory.
func newDevice(room string) (*device, error) {
	added := &device{home: filepath.Join(room, "home"), files: filepath.Join(room, "files")}
	for _, path := range []string{added.home, filepath.Join(added.files, ".stfolder")} {
		if err := os.MkdirAll(path, 0o755); err != nil {
			return nil, err
		}
	}
	certificate, err := tlsutil.NewCertificate(filepath.Join(added.home, "cert.pem"), filepath.Join(added.home, "key.pem"), "syncthing", 1)
	if err != nil {
		return nil, err
	}
	added.id = protocol.NewDeviceID(certificate.Certificate[0])
	if added.backend, err = backend.Open(filepath.Join(added.home, "index-v0.14.0.db"), backend.TuningAuto); err != nil {
		return nil, err
	}
	index, err := db.NewLowlevel(added.backend, events.NoopLogger)
	if err != nil {
		return nil, err
	}
	if err := db.UpdateSchema(index); err != nil {
		return nil, err
	}
	added.set, err = db.NewFileSet(folderID, index)
	return added, err
}

// configure writes the configuration: the folder shared with all devices.
func (d *device) configure(devices []*device) error {
	made := config.New(d.id)
	folder := config.FolderConfiguration{ID: folderID, Path: d.files, MarkerName: ".stfolder", FilesystemType: 0}
	for _, device := range devices {
		made.SetDevice(config.DeviceConfiguration{DeviceID: device.id, Name: filepath.Base(filepath.Dir(device.home))})
		folder.Devices = append(folder.Devices, config.FolderDeviceConfiguration{DeviceID: device.id})
	}
	made.SetFolder(folder)
	file, err := os.Create(filepath.Join(d.home, "config.xml"))
	if err != nil {
		return err
	}
	defer file.Close()
	return made.WriteXML(file)
}
