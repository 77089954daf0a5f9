package ask

import (
	"strings"
	"testing"

	"syncthing-audit/finding"
	"syncthing-audit/hang"
)

// Whatever a program writes of a document is an answer or is refused with a reason; an answer that isn't settled has a failure, and each is written as
// it was read.
func FuzzReplies(f *testing.F) {
	const firmly, comes = "firm\n" + counts2, "converging\n" + pairs2
	f.Add("settled\n" + counts2 + firmly + comes)
	f.Add("settled\n" + counts2 + "settled\n" + firmly + comes)
	f.Add("not settled: NotWinner docs a\n" + counts2 + "NotWinner docs a\n  winner: none\nLocalOnly docs b\\x20c on 1\nnot firm: NotWinner docs a\n" + counts2 + comes)
	f.Add("settled\n" + counts2 + "not firm: ViewNotBelow docs a on 2\n" + counts2 + "not converging: WouldCopy docs a on 2\n" + pairs2)
	f.Fuzz(func(t *testing.T, text string) {
		defer hang.Watch()()
		reply, err := ReadReply("docs", text)
		if err == nil && (text[0] == 'n') != (len(reply.Failures) > 0) {
			t.Errorf("%d failures of %q", len(reply.Failures), text)
		}
		if err != nil {
			reply = &Reply{}
		}
		checkRead(t, reply.Failures, settled, err)
	})
}

// Whatever a program writes of a stream is an answer or is refused with a reason; what it tells is of the stream's names, each as it was read.
func FuzzStreams(f *testing.F) {
	const counts = "folder docs: 3 names, 1 deleted, 2 devices\n"
	asked := aStream("a", "b b", "c")
	f.Add("firm\n" + counts)
	f.Add("LocalOnly docs b\\x20b on 1\n  winner: none\nVersionDiffers docs b\\x20b on 2\nnot firm: LocalOnly docs b\\x20b on 1\n" + counts)
	f.Add("ViewNotBelow docs a on 1\nVersionDiffers docs c on 1\nnot firm: VersionDiffers docs c on 1\n" + counts)
	f.Fuzz(func(t *testing.T, text string) {
		defer hang.Watch()()
		all, _, err := readStream(asked, text, firm)
		for _, one := range all {
			if one.Name != "a" && one.Name != "b b" && one.Name != "c" {
				t.Errorf("%q isn't asked", one.Name)
			}
		}
		if err == nil && (len(all) == 0) != strings.HasPrefix(text, "firm\n") {
			t.Errorf("%v is told by %q", all, text)
		}
		checkRead(t, all, firm, err)
	})
}

// checkRead says which failure of what an answer isn't yes for isn't written as it was read, and which error has no reason.
func checkRead(t *testing.T, all []finding.Failure, yes string, err error) {
	if err != nil && err.Error() == "" {
		t.Error("refused without a reason")
	}
	for _, one := range all {
		if read, is := readFailure("docs", Line("docs", &one), yes); !is || read != one {
			t.Errorf("%+v is read again as %+v", one, read)
		}
	}
}
