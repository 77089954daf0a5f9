package configured

import (
	"encoding/json"
	"encoding/xml"
	"reflect"
	"testing"

	"syncthing-audit/part"
)

// The configuration of a folder says the same as config.xml and as the REST API have it.
func TestBothForms(t *testing.T) {
	const text = `<folder id="docs" path="/docs" type="receiveonly" ignorePerms="true"><paused>true</paused><ignoreDelete>true</ignoreDelete><maxConflicts>-1</maxConflicts>` +
		`<versioning type="simple"><param key="keep" val="3"></param><param key="cleanoutDays" val="9"></param><fsPath>old</fsPath></versioning>` +
		`<modTimeWindowS>2</modTimeWindowS><syncOwnership>true</syncOwnership><sendOwnership>true</sendOwnership><syncXattrs>true</syncXattrs><sendXattrs>true</sendXattrs>` +
		`<device id="one"></device><device id="two"></device></folder>`
	const said = `{"id":"docs","path":"/docs","type":"receiveonly","ignorePerms":true,"paused":true,"ignoreDelete":true,"maxConflicts":-1,"modTimeWindowS":2,"syncOwnership":true,` +
		`"versioning":{"type":"simple","params":{"keep":"3","cleanoutDays":"9"},"cleanupIntervalS":3600,"fsPath":"old","fsType":"basic"},` +
		`"sendOwnership":true,"syncXattrs":true,"sendXattrs":true,"devices":[{"deviceID":"one","introducedBy":""},{"deviceID":"two"}]}`
	var written, told Folder
	if err := xml.Unmarshal([]byte(text), &written); err != nil {
		t.Fatal(err)
	}
	if err := json.Unmarshal([]byte(said), &told); err != nil {
		t.Fatal(err)
	}
	all := -1
	due := Folder{ID: "docs", Path: "/docs", Type: "receiveonly", IgnorePerms: true, Paused: true, IgnoreDelete: true, MaxConflicts: &all, TimeWindow: 2, SyncOwnership: true,
		SendOwnership: true, SyncXattrs: true, SendXattrs: true, Sharing: []Device{{ID: "one"}, {ID: "two"}}}
	due.Versioning.Type, due.Versioning.Path, due.Versioning.Params = "simple", "old", Params{"keep": "3", "cleanoutDays": "9"}
	if !reflect.DeepEqual(written, due) || !reflect.DeepEqual(told, due) {
		t.Errorf("%+v\n%+v", written, told)
	}
}

// A part is told each option, and the paused devices that the folder is shared with. What is encrypted, or of a type that nobody knows, isn't read.
func TestWhatAPartIsTold(t *testing.T) {
	kept := 3
	for why, row := range map[string]struct {
		change func(*Folder)
		due    part.Folder
	}{
		"sends and receives": {func(*Folder) {}, part.Folder{Kind: "send-receive"}},
		"only sends":         {func(f *Folder) { f.Type = "sendonly" }, part.Folder{Kind: "send-only"}},
		"only receives":      {func(f *Folder) { f.Type = "receiveonly" }, part.Folder{Kind: "receive-only"}},
		"no permissions":     {func(f *Folder) { f.IgnorePerms = true }, part.Folder{Kind: "send-receive", IgnoresPermissions: true}},
		"a window":           {func(f *Folder) { f.TimeWindow = 1<<31 - 1 }, part.Folder{Kind: "send-receive", TimeWindow: 1<<31 - 1}},
		"the least one":      {func(f *Folder) { f.TimeWindow = 1 }, part.Folder{Kind: "send-receive", TimeWindow: 1}},
		"too long a window":  {func(f *Folder) { f.TimeWindow = 1 << 31 }, part.Folder{Kind: "send-receive"}},
		"none":               {func(f *Folder) { f.TimeWindow = -1 }, part.Folder{Kind: "send-receive"}},
		"syncs owners":       {func(f *Folder) { f.SyncOwnership = true }, part.Folder{Kind: "send-receive", ScansAttributes: true}},
		"sends owners":       {func(f *Folder) { f.SendOwnership = true }, part.Folder{Kind: "send-receive", ScansAttributes: true}},
		"syncs attributes":   {func(f *Folder) { f.SyncXattrs = true }, part.Folder{Kind: "send-receive", ScansAttributes: true}},
		"sends attributes":   {func(f *Folder) { f.SendXattrs = true }, part.Folder{Kind: "send-receive", ScansAttributes: true}},
		"old versions":       {func(f *Folder) { f.Versioning.Type, f.Versioning.Path = "staggered", "old" }, part.Folder{Kind: "send-receive"}},
		"shared with two":    {func(f *Folder) { f.Sharing = []Device{{ID: "two"}, {ID: "one"}} }, part.Folder{Kind: "send-receive", PausedDevices: []string{"two"}}},
	} {
		folder := &Folder{ID: "docs", Type: "sendreceive", MaxConflicts: &kept}
		row.change(folder)
		row.due.Options = &part.Options{MaxConflicts: 3, Versions: &part.Versions{Kind: part.VersionsNone}}
		if folder.Versioning.Type != "" {
			row.due.Options.Versions = &part.Versions{Kind: part.VersionsStaggered, Place: "old"}
		}
		told := part.Folder{}
		if err := folder.Tell(&told, []Device{{ID: "one"}, {ID: "two", Paused: true}, {ID: "three", Paused: true}}); err != nil || !reflect.DeepEqual(told, row.due) {
			t.Errorf("%s: %+v, %v", why, told, err)
		}
	}
	for _, folder := range []*Folder{{Type: "receiveencrypted", MaxConflicts: &kept}, {Type: "odd", MaxConflicts: &kept}, {Type: "sendreceive"}} {
		told := part.Folder{}
		if err := folder.Tell(&told, nil); err == nil || !reflect.DeepEqual(told, part.Folder{}) || folder.IsEncrypted() != (folder.Type == "receiveencrypted") {
			t.Errorf("%+v: %+v, %v", folder, told, err)
		}
	}
}
