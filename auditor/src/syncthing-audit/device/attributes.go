package device

import "encoding/xml"

// attributesIn gives the folders in which scans look at owners or extended attributes, by their ids. Such a scan hashes each
// file whose inode changed, also where size and time are as recorded. Syncthing 1.19 has no such scans, and its packages
// don't read these options.
func attributesIn(text []byte) (map[string]bool, error) {
	var read struct {
		Folders []struct {
			ID            string `xml:"id,attr"`
			SendOwnership bool   `xml:"sendOwnership"`
			SyncOwnership bool   `xml:"syncOwnership"`
			SendXattrs    bool   `xml:"sendXattrs"`
			SyncXattrs    bool   `xml:"syncXattrs"`
		} `xml:"folder"`
	}
	if err := xml.Unmarshal(text, &read); err != nil {
		return nil, err
	}
	folders := map[string]bool{}
	for _, folder := range read.Folders {
		folders[folder.ID] = folder.SendOwnership || folder.SyncOwnership || folder.SendXattrs || folder.SyncXattrs
	}
	return folders, nil
}
