package join

import (
	"encoding/json"
	"testing"

	"syncthing-audit/part"
)

// A member keeps its counts where an export saves it. One that an older program saved doesn't tell them.
func TestSavedMember(t *testing.T) {
	member := Member{Device: NewDevice(silent{&part.Head{Device: "A"}}, "a.part"), Near: 3, Links: 4, Barred: 5, Temporary: &part.Count{Names: 2, Bytes: 9}}
	text, err := json.Marshal(member)
	if err != nil {
		t.Fatal(err)
	}
	var read, old Member
	if err := json.Unmarshal(text, &read); err != nil || read.Head.Device != "A" || read.From != "a.part" || read.Near != 3 || read.Links != 4 || read.Barred != 5 || *read.Temporary != *member.Temporary {
		t.Errorf("%s: %+v, %v", text, read, err)
	}
	if err := json.Unmarshal([]byte(`{"Head":{"device":"A"},"From":"a.part","About":null}`), &old); err != nil || old.Temporary != nil || old.Near != 0 {
		t.Errorf("%+v, %v", old, err)
	}
	for _, text := range []string{`{"Head":1}`, `{"Near":"x"}`, `[]`} {
		if err := json.Unmarshal([]byte(text), &Member{}); err == nil {
			t.Errorf("%s is a member", text)
		}
	}
}

// silent is a part without lines.
type silent struct{ head *part.Head }

func (s silent) Head() *part.Head         { return s.head }
func (s silent) Next() (part.Line, error) { panic("no line is asked for") }
