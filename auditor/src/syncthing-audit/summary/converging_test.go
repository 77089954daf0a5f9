package summary

import (
	"encoding/json"
	"strings"
	"testing"

	"syncthing-audit/finding"
	"syncthing-audit/outlook"
	"syncthing-audit/part"
)

// What is proved of a folder stands below what is foretold of it, and JSON has it. Nothing is said to be proved where something hinders it,
// or where the model foretells a loss.
func TestConverging(t *testing.T) {
	lost := &outlook.Outlook{Names: 1, Lost: 1}
	right := &outlook.Outlook{Names: 1, Right: 1}
	pairs := int64(2147)
	hindrance := &finding.Failure{Reason: "Concurrent", Name: "a", Device: 2}
	for _, row := range []struct {
		first   *finding.Failure
		outlook *outlook.Outlook
		proved  bool
		json    string
	}{
		{nil, right, true, `"converging":"converging","pairs_to_come":2147`},
		{nil, nil, true, `"converging":"converging","pairs_to_come":2147`},
		{nil, lost, false, `"converging":"converging","pairs_to_come":2147`},
		{hindrance, right, false, `"converging":"not-converging","not_converging":{"reason":"Concurrent","name":"a","device":"` + server + `"},`},
	} {
		answer := answerOf(2, func(folder *finding.Folder) {
			fails(folder, "a", []*part.Name{file(1, 1), nil}, "RecordMissing 2")
			folder.Convergence = finding.Convergence{First: row.first, Pairs: &pairs}
			folder.Outlook = row.outlook
		})
		text := printed(answer)
		place, foretold := strings.Index(text, "proved for devices that keep a few rules"), strings.Index(text, "if nobody does anything in docs")
		if strings.Contains(text, "still to come: 2,147 pairs of a name and a device proved for devices ") != row.proved {
			t.Errorf("%+v: %s", row, text)
		}
		if (place > 0) != row.proved || place > 0 && foretold > place || place > strings.Index(text, " a (in docs") {
			t.Errorf("%+v: %s", row, text)
		}
		if written, err := json.Marshal(Of(answer)); err != nil || !strings.Contains(string(written), row.json) {
			t.Errorf("%+v: %s, %v", row, written, err)
		}
	}
}
