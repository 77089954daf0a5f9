package audit

import (
	"bytes"
	"testing"

	"syncthing-audit/hang"
)

// Whatever two parts say, joining them ends with an answer or a reason, and nothing panics. What is audited of both in one
// order is audited in the other one, too.
func FuzzJoins(f *testing.F) {
	one, other := aPart(f, 1), aPart(f, 2)
	f.Add(one, other)
	f.Add(one, one)
	f.Add(aSlice(f, 1), aSlice(f, 2))
	f.Add(aLook(f, 1, false), aLook(f, 2, true))
	f.Add(other, bytes.ReplaceAll(one, []byte(`"max":9`), []byte(`"max":8`)))
	f.Add(bytes.ReplaceAll(one, []byte(`"name":"b"`), []byte(`"name":"bb"`)), bytes.ReplaceAll(other, []byte(`"sequence":3`), []byte(`"sequence":4`)))
	f.Fuzz(func(t *testing.T, one, other []byte) {
		defer hang.Watch()()
		answer, err := answerOf(t, one, other)
		if err != nil {
			if err.Error() == "" {
				t.Error("refused without a reason")
			}
			return
		}
		again, err := answerOf(t, other, one)
		if err != nil || len(again.Refusals) != len(answer.Refusals) || len(again.Folders) != len(answer.Folders) {
			t.Fatalf("another order says otherwise: %v", err)
		}
		for place, folder := range answer.Folders {
			if folder.Documents != again.Folders[place].Documents || folder.Unwon.Len() != again.Folders[place].Unwon.Len() {
				t.Errorf("folder %q differs in another order", folder.ID)
			}
		}
	})
}
