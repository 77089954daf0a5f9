package ask

import (
	"reflect"
	"strings"
	"testing"

	"syncthing-audit/finding"
)

const counts2 = "folder docs: 2 names, 1 deleted, 3 devices\n"

// pairs2 is the same line as 'converge' writes it.
const pairs2 = "folder docs: 2 names, 1 deleted, 3 devices, 12 pairs not yet at the winner\n"

func TestExplanations(t *testing.T) {
	failures, err := readExplanation("docs", "StoreDiffers docs a on 1\n  winner: device 1\n  store of 1: nothing\nStoreDiffers docs b on 2\n")
	if err != nil || len(failures) != 2 || failures[1] != (finding.Failure{Reason: "StoreDiffers", Name: "b", Device: 2}) {
		t.Errorf("%v, %v", failures, err)
	}
	for _, text := range []string{"settled\n", "\n", "StoreDiffers docs b on 1\nStoreDiffers docs a on 1\n", "StoreDiffers docs a on 2\nStoreDiffers docs a on 1\n",
		"ViewAhead docs a on 1\nStoreDiffers docs a on 1\n", "StoreDiffers docs a on 1\nStoreDiffers docs a on 1\n", "ViewNotBelow docs a on 1\n"} {
		if failures, err := readExplanation("docs", text); err == nil {
			t.Errorf("%q was read as %v", text, failures)
		}
	}
}

func TestReports(t *testing.T) {
	read, err := readReport("docs", "settled\n"+counts2, settled)
	if err != nil || read.first != nil || read.names != 2 || read.deleted != 1 || read.pairs != nil {
		t.Errorf("%+v, %v", read, err)
	}
	read, err = readReport("docs", "not converging: WouldCopy docs a on 2\n"+pairs2, converging)
	if err != nil || *read.first != (finding.Failure{Reason: "WouldCopy", Name: "a", Device: 2}) || *read.pairs != 12 {
		t.Errorf("%+v, %v", read, err)
	}
	for yes, texts := range map[string][]string{
		settled: {"", "refused: 184 Range\n", "settled\n", "settled\n" + counts2[:len(counts2)-1], "\n" + counts2, "settled\n" + counts2 + "\n", "settled\nfolder pics: 2 names, 1 deleted, 3 devices\n",
			"odd\n" + counts2, "firm\n" + counts2, "settled\n" + pairs2, "not settled: VersionDiffers docs a on 1\n" + counts2, "not firm: NotWinner docs a\n" + counts2, "NotWinner docs a\n" + counts2,
			"settled\nfolder docs: -2 names, 1 deleted, 3 devices\n", "settled\nfolder docs: 2 names, 1 deleted, 3 devices.\n"},
		firm:       {"settled\n" + counts2, "not firm: WouldCopy docs a on 1\n" + counts2},
		converging: {"converging\n" + counts2, "not converging: ViewAhead docs a on 2\n" + pairs2, "not converging: WouldCopy pics a on 2\n" + pairs2},
	} {
		for _, text := range texts {
			if read, err := readReport("docs", text, yes); err == nil {
				t.Errorf("%s: %q was taken: %+v", yes, text, read)
			}
		}
	}
}

// What the commands say of a document goes together, or isn't taken.
func TestReplies(t *testing.T) {
	const (
		isSettled = "settled\n" + counts2
		isnt      = "not settled: StoreDiffers docs a on 1\n" + counts2 + "StoreDiffers docs a on 1\n  winner: none\nStoreUnclean docs b on 1\n"
		differs   = "not firm: VersionDiffers docs a on 1\n" + counts2
		comes     = "converging\n" + pairs2
	)
	of := func(reason, name string, device uint64) *finding.Failure {
		return &finding.Failure{Reason: reason, Name: name, Device: device}
	}
	for _, one := range []struct {
		text      string
		failures  int
		notFirm   *finding.Failure
		hindrance *finding.Failure
	}{
		{isSettled + "firm\n" + counts2 + comes, 0, nil, nil},
		{isSettled + "settled\nfirm\n" + counts2 + comes, 0, nil, nil},
		{isSettled + differs + comes, 0, of("VersionDiffers", "a", 1), nil},
		{isSettled + "settled\n" + differs + "not converging: NothingPrevails docs a\n" + pairs2, 0, of("VersionDiffers", "a", 1), of("NothingPrevails", "a", 0)},
		{isnt + "not firm: StoreDiffers docs a on 1\n" + counts2 + comes, 2, nil, nil},
		{isnt + "not firm: StoreDiffers docs a on 1\n" + counts2 + "not converging: WouldCopy docs b on 2\n" + pairs2, 2, nil, of("WouldCopy", "b", 2)},
	} {
		reply, err := ReadReply("docs", one.text)
		if err != nil || reply.Names != 2 || reply.Deleted != 1 || len(reply.Failures) != one.failures || !reflect.DeepEqual(reply.NotFirm, one.notFirm) ||
			!reflect.DeepEqual(reply.Convergence.First, one.hindrance) || *reply.Convergence.Pairs != 12 {
			t.Errorf("%q: %+v, %v", one.text, reply, err)
		}
	}
	const firmly, isntFirm = "firm\n" + counts2, "not firm: StoreDiffers docs a on 1\n" + counts2
	other := func(text string) string { return strings.Replace(text, "2 names", "3 names", 1) }
	for _, text := range []string{
		"", "settled", isSettled, isSettled + firmly, isSettled + comes, firmly + comes, isSettled + comes + firmly, isnt + isntFirm, // not all of it
		isSettled + "firm\n" + comes, isSettled + firmly + "converging\n", "settled\n" + firmly + comes, isSettled + firmly + comes + "\n", isSettled + firmly + comes + "settled\n",
		isSettled + isntFirm + comes, isnt + firmly + comes, isnt + differs + comes, isnt + "not firm: StoreDiffers docs b on 1\n" + counts2 + comes, // of several minds
		isSettled + "StoreDiffers docs a on 1\n" + firmly + comes, isSettled + "StoreDiffers docs a on 1\n" + isntFirm + comes,
		"not settled: StoreDiffers docs a on 1\n" + counts2 + isntFirm + comes, "not settled: StoreDiffers docs a on 1\n" + counts2 + "StoreDiffers docs b on 1\n" + isntFirm + comes,
		"not settled: StoreDiffers docs a on 1\n" + counts2 + "settled\n" + isntFirm + comes,
		isSettled + "not firm: Odd docs a\n" + counts2 + comes, "not settled: WouldCopy docs a on 1\n" + counts2 + "WouldCopy docs a on 1\n" + firmly + comes,
		isSettled + other(firmly) + comes, isSettled + firmly + other(comes), other(isSettled) + firmly + comes, // counted otherwise
	} {
		if reply, err := ReadReply("docs", text); err == nil {
			t.Errorf("%q: %+v", text, reply)
		}
	}
}
