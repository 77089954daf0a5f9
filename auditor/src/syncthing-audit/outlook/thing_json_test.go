package outlook

import (
	"encoding/json"
	"reflect"
	"testing"
	"time"

	"syncthing-audit/forecast"
)

// A thing is read as it was written, whatever it is: an empty file has its size, and what is made later has no time.
func TestThingsAsJSON(t *testing.T) {
	at := time.Unix(7, 5).UTC()
	for told, thing := range map[string]Thing{
		`{"devices":["A"],"type":"file","size":0,"modified":"1970-01-01T00:00:07.000000005Z"}`: {Devices: []string{"A"}, Type: forecast.File, Modified: &at},
		`{"devices":["A"],"type":"file","size":3,"content":"aa","copy":true}`:                  {Devices: []string{"A"}, Type: forecast.File, Content: forecast.Content{Size: 3, Hash: "aa"}, IsCopy: true},
		`{"devices":["A"],"type":"directory","size":0}`:                                        {Devices: []string{"A"}, Type: forecast.Directory},
		`{"devices":["A"],"type":"symlink","size":0,"target":{"hex":"ff"}}`:                    {Devices: []string{"A"}, Type: forecast.Symlink, Target: "\xff"},
	} {
		written, err := json.Marshal(thing)
		if err != nil || string(written) != told {
			t.Errorf("%s, %v", written, err)
		}
		var read Thing
		if err := json.Unmarshal([]byte(told), &read); err != nil || !reflect.DeepEqual(read, thing) {
			t.Errorf("%s: %+v, %v", told, read, err)
		}
	}
	read := Thing{Type: forecast.File}
	if err := json.Unmarshal([]byte(`{"type":"pipe"}`), &read); err != nil || read.Type != 0 {
		t.Errorf("%+v, %v", read, err)
	}
}
