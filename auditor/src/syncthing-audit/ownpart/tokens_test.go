package ownpart

import (
	"io"
	"os"
	"path/filepath"
	"strings"
	"testing"

	"github.com/syncthing/syncthing/lib/config"
	"github.com/syncthing/syncthing/lib/protocol"
	"syncthing-audit/commandline"
	"syncthing-audit/device"
	"syncthing-audit/fixture"
	"syncthing-audit/looks"
	"syncthing-audit/part"
)

// Tokens come from several files, and from standard input where a dash stands for it; what is none is told with its file.
func TestTokensOfFiles(t *testing.T) {
	home := homeOf(t)
	one, other := looks.Token(home.ID.String(), strings.Repeat("ab", 16)), looks.Token(fixture.Other.String(), strings.Repeat("cd", 16))
	stdin, err := os.Open(tokenFile(t, other))
	if err != nil {
		t.Fatal(err)
	}
	defer stdin.Close()
	was := os.Stdin
	os.Stdin = stdin
	t.Cleanup(func() { os.Stdin = was })
	tokens, err := readTokens([]string{tokenFile(t, one), "-"})
	if err != nil || len(tokens) != 2 || tokens[home.ID.String()] != strings.Repeat("ab", 16) || tokens[fixture.Other.String()] != strings.Repeat("cd", 16) {
		t.Errorf("%v, %v", tokens, err)
	}
	path := tokenFile(t, "x")
	if tokens, err := readTokens([]string{path}); err == nil || !strings.HasPrefix(err.Error(), "refused: "+path+": ") || tokens != nil {
		t.Errorf("%v, %v", tokens, err)
	}
}

// A device that shares a folder, and whose first look isn't known to be over, is told once; a strict look without consent is refused. An observer looks by itself.
func TestDevicesWithoutATokenAreTold(t *testing.T) {
	home := homeOf(t)
	addFolder(t, home, "pics", filepath.Join(t.TempDir(), "pics"), false)
	pics := &home.Config.Folders[1]
	pics.Devices = append(pics.Devices, home.Config.Folders[0].Devices...)
	home.Configure(t)
	if err := os.MkdirAll(filepath.Join(pics.Path, ".stfolder"), 0o700); err != nil {
		t.Fatal(err)
	}
	own, other := home.ID.String(), fixture.Other.String()
	told := "the tokens have none of server (" + other + "), with which folders are shared"
	for why, row := range map[string]struct {
		change func(*commandline.Options)
		tokens map[string]string
		told   string
		isMade bool
	}{
		"all":                  {func(*commandline.Options) {}, map[string]string{own: "a", other: "b"}, "", true},
		"one lacks":            {func(*commandline.Options) {}, map[string]string{own: "a"}, "syncthing-audit: " + told + ": an audit leaves these devices out\n", true},
		"it is left out":       {func(o *commandline.Options) { o.LeaveOut[part.Absent] = true }, map[string]string{own: "a"}, "", true},
		"it is an observer":    {func(o *commandline.Options) { o.Observers = []string{other} }, map[string]string{own: "a"}, "", true},
		"strict":               {func(o *commandline.Options) { o.Strict = true }, map[string]string{own: "a"}, "refused: " + told + ": add them, or leave these devices out with --leave-out absent", false},
		"strict, and left out": {func(o *commandline.Options) { o.Strict, o.LeaveOut[part.Absent] = true, true }, map[string]string{own: "a"}, "", true},
		"strict, and whole":    {func(o *commandline.Options) { o.Strict = true }, map[string]string{own: "a", other: "b"}, "", true},
	} {
		asked := askedOf(home)
		row.change(&asked)
		opened, err := openSource(device.OpenLive, asked, io.Discard)
		if err != nil {
			t.Fatal(err)
		}
		opened.read.Look = &part.Look{After: row.tokens}
		var log strings.Builder
		if err = checkTokens(opened.read, asked, &log); err != nil {
			log.WriteString(err.Error())
		}
		opened.Close()
		if (err == nil) != row.isMade || log.String() != row.told {
			t.Errorf("%s: %q, not %q", why, log.String(), row.told)
		}
	}
}

// Devices without a token are told in their order, each once.
func TestSeveralDevicesWithoutAToken(t *testing.T) {
	home := homeOf(t)
	names := []string{"tv", "nas", "phone", "box"}
	for place, name := range names {
		id := protocol.DeviceID{7: byte(20 + place)}
		home.Config.SetDevice(config.DeviceConfiguration{DeviceID: id, Name: name})
		home.Config.Folders[0].Devices = append(home.Config.Folders[0].Devices, config.FolderDeviceConfiguration{DeviceID: id})
	}
	home.Configure(t)
	opened, err := openSource(device.OpenLive, askedOf(home), io.Discard)
	if err != nil {
		t.Fatal(err)
	}
	defer opened.Close()
	opened.read.Look = &part.Look{After: map[string]string{home.ID.String(): "a"}}
	var log strings.Builder
	if err := checkTokens(opened.read, askedOf(home), &log); err != nil {
		t.Fatal(err)
	}
	last := -1
	for _, name := range []string{"box", "nas", "phone", "server", "tv"} {
		at := strings.Index(log.String(), name+" (")
		if at <= last || strings.Count(log.String(), name+" (") != 1 {
			t.Errorf("%s isn't in its place: %s", name, log.String())
		}
		last = at
	}
}
