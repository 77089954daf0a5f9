package exported

import (
	"io"
	"os"
	"path/filepath"
	"strings"
	"testing"

	"syncthing-audit/choice"
)

// Answers that were swapped between documents, or of which one was given twice, aren't summed up: the fault of a document would be lost, or told of another.
func TestAnswersOfOtherDocuments(t *testing.T) {
	for why, swap := range map[string]func(first, second string) (string, string){
		"swapped":      func(first, second string) (string, string) { return second, first },
		"given twice":  func(first, second string) (string, string) { return first, first },
		"given before": func(first, second string) (string, string) { return second, second },
	} {
		directory := t.TempDir()
		if _, _, err := exportOf(t, 2, choice.Names{}, directory, io.Discard); err != nil {
			t.Fatal(err)
		}
		reply(t, directory, "cut-0001", settled)
		reply(t, directory, "cut-0002", unsettled)
		texts := [2]string{}
		for at, name := range []string{"cut-0001.reply", "cut-0002.reply"} {
			text, err := os.ReadFile(filepath.Join(directory, name))
			if err != nil {
				t.Fatal(err)
			}
			texts[at] = string(text)
		}
		first, second := swap(texts[0], texts[1])
		answer(t, directory, "cut-0001.reply", first)
		answer(t, directory, "cut-0002.reply", second)
		if sum, err := SumOf(directory); err == nil || !strings.HasSuffix(err.Error(), "it may be the answer to another one") {
			t.Errorf("%s: %+v, %v", why, sum, err)
		}
	}
}
