package ownpart

import (
	"time"

	"github.com/syncthing/syncthing/lib/config"
	"syncthing-audit/commandline"
	"syncthing-audit/device"
	"syncthing-audit/inputs"
	"syncthing-audit/part"
	"syncthing-audit/rest"
)

// WaitForRest says of each folder how Syncthing is seen with it, after the first look and before the second one reads the index. If Syncthing isn't
// idle, it is asked on for as long as --still says.
func WaitForRest(asked commandline.Options) (map[string]*part.Rest, error) {
	about, err := device.ReadConfig(asked.Homes[0], asked.Maps[0]...)
	if err != nil {
		return nil, err
	}
	end := time.Now().Add(asked.Stillness())
	rests := map[string]*part.Rest{}
	for _, folder := range inputs.Chosen(about, asked.Folders) {
		rests[folder.ID] = restOf(asked, about, folder)
		for !rests[folder.ID].IsAtRest() && rests[folder.ID].State != part.RestUnasked && time.Now().Before(end) {
			time.Sleep(rest.TimeBetweenQuestions)
			rests[folder.ID] = restOf(asked, about, folder)
		}
	}
	return rests, nil
}

// restOf says how Syncthing is seen with a folder now. A Syncthing that is started later scans what stands on the disk then.
func restOf(asked commandline.Options, about config.Configuration, folder config.FolderConfiguration) *part.Rest {
	if device.IsStopped(asked.Homes[0], asked.Data[0]) {
		return &part.Rest{State: part.RestStopped}
	}
	state, err := (rest.Syncthing{Home: asked.Homes[0], Data: asked.Data[0], GUI: about.GUI}).State(folder.ID)
	switch {
	case err != nil:
		return &part.Rest{State: part.RestUnasked, Why: err.Error()}
	case state == "":
		return &part.Rest{State: part.RestPaused}
	}
	return &part.Rest{State: state}
}
