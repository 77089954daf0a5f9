package device

import (
	"os"
	"path/filepath"
	"reflect"
	"regexp"
	"strings"
	"testing"

	"github.com/syncthing/syncthing/lib/config"
	"github.com/syncthing/syncthing/lib/db"
	"github.com/syncthing/syncthing/lib/db/backend"
	"github.com/syncthing/syncthing/lib/protocol"
)

// configOf gives the config.xml that 'syncthing generate' of a version makes.
func configOf(t *testing.T, version string) []byte {
	text, err := os.ReadFile(filepath.Join("testdata", "config-"+version+".xml"))
	if err != nil {
		t.Fatal(err)
	}
	return text
}

// Configurations of 1.19 and of 1.29, each under each version's number: which are read, and which are refused in what words. The packages of either
// Syncthing read the same of both, so whichever this program is built with passes.
func TestTheConfigurationsOfBothVersions(t *testing.T) {
	number := regexp.MustCompile(`<configuration version="\d+">`)
	for _, version := range []string{"1.19", "1.29"} {
		text := configOf(t, version)
		for written, told := range map[string]string{"": "", "23": "", "35": "", "36": "", "37": "", "22": "config.xml: version 22 is too old (from 23 on): start a newer Syncthing on it once",
			"0":  "config.xml: version 0 is too old (from 23 on): start a newer Syncthing on it once",
			"38": "refused: config.xml: version 38 is of a newer Syncthing than those that are read (up to 37)",
			"51": "refused: config.xml: version 51 is of a newer Syncthing than those that are read (up to 37)"} {
			changed := text
			if written != "" {
				changed = number.ReplaceAll(text, []byte(`<configuration version="`+written+`">`))
			}
			read, err := readConfig("config.xml", changed, protocol.LocalDeviceID)
			if told != "" {
				if err == nil || err.Error() != told {
					t.Errorf("%s as %s: %v", version, written, err)
				}
				continue
			}
			if err != nil || len(read.Folders) != 1 {
				t.Errorf("%s as %s: %v", version, written, err)
				continue
			}
			checkDefaultFolder(t, version+" as "+written, &read)
		}
		for end := 0; end < len(text)/2; end += 97 {
			if _, err := readConfig("config.xml", text[:end], protocol.LocalDeviceID); err == nil || !strings.HasPrefix(err.Error(), "config.xml: ") {
				t.Errorf("%s is read up to byte %d: %v", version, end, err)
			}
		}
	}
}

// checkDefaultFolder checks what a part says of the folder that both versions make.
func checkDefaultFolder(t *testing.T, why string, read *config.Configuration) {
	folder := read.Folders[0]
	told := []interface{}{folder.ID, folder.Label, folder.Path, folder.Type.String(), folder.IgnorePerms, folder.Paused, folder.MaxConflicts, folder.IgnoreDelete,
		folder.ModTimeWindow().String(), folder.MarkerName}
	expected := []interface{}{"default", "Default Folder", "/home/ann/Sync", "sendreceive", false, false, 10, false, "0s", ".stfolder"}
	if !reflect.DeepEqual(told, expected) {
		t.Errorf("%s: %v", why, told)
	}
}

// An index of the schema that both versions have is read. Its packages bring none of another schema up to date here, and both say so.
func TestTheIndexesOfBothVersions(t *testing.T) {
	const schema = 14
	for number := int64(1); number <= 20; number++ {
		err := checkSchemaOf(t, number)
		if (err == nil) != (number == schema) {
			t.Errorf("schema %d: %v", number, err)
		}
	}
}

// checkSchemaOf says why an index of a schema isn't read.
func checkSchemaOf(t *testing.T, schema int64) error {
	memory := backend.OpenMemory()
	defer memory.Close()
	about := db.NewMiscDataNamespace(memory)
	if err := about.PutInt64(keyOfSchema, schema); err != nil {
		t.Fatal(err)
	}
	if err := about.PutString(keyOfLeast, "v1.19.0"); err != nil {
		t.Fatal(err)
	}
	return checkSchema(memory)
}
