package device

import (
	"path/filepath"

	"github.com/syncthing/syncthing/lib/config"
	"github.com/syncthing/syncthing/lib/protocol"
)

// IDOf gives the device whose home a directory is, as far as its certificate says it, whatever else of the home can't be read; nothing otherwise.
func IDOf(dir string) string {
	id, err := readDeviceID(filepath.Join(dir, "cert.pem"))
	if err != nil {
		return ""
	}
	return id.String()
}

// About reads whose home a directory is, and how it is configured. No index is read.
func About(dir string, maps ...Map) (protocol.DeviceID, config.Configuration, error) {
	read, err := readAbout(dir, maps)
	if err != nil {
		return protocol.DeviceID{}, config.Configuration{}, err
	}
	return read.ID, read.Config, nil
}
