package observing

import (
	"crypto/sha256"
	"fmt"
	"io"
	"net/http"
	"net/http/httptest"
	"strings"
	"testing"

	"syncthing-audit/part"
	"syncthing-audit/rest"
)

// A Syncthing is asked at both looks. The folder was at rest where it was idle at both, and of one whose kind changed meanwhile, nothing is taken. A folder
// that is encrypted there costs the others nothing.
func TestAskingAtBothLooks(t *testing.T) {
	for why, row := range map[string]struct {
		types, states [2]string
		err           error
		told          string // kind and state; nothing where nothing is taken
	}{
		"idle at both":            {[2]string{"receiveonly", "receiveonly"}, [2]string{"idle", "idle"}, nil, "receive-only idle"},
		"at work at the first":    {[2]string{"sendreceive", "sendreceive"}, [2]string{"scanning", "idle"}, nil, "send-receive scanning"},
		"at work at the second":   {[2]string{"sendonly", "sendonly"}, [2]string{"idle", "syncing"}, nil, "send-only syncing"},
		"another kind by then":    {[2]string{"sendreceive", "receiveonly"}, [2]string{"idle", "idle"}, errOtherwise, ""},
		"encrypted":               {[2]string{"receiveencrypted", "receiveencrypted"}, [2]string{"idle", "idle"}, nil, ""},
		"of a type nobody knows":  {[2]string{"odd", "odd"}, [2]string{"idle", "idle"}, errAny, ""},
		"paused, as it says then": {[2]string{"sendreceive", "sendreceive"}, [2]string{"", ""}, nil, "send-receive paused"},
	} {
		look := 0
		server := httptest.NewTLSServer(http.HandlerFunc(func(to http.ResponseWriter, asked *http.Request) {
			switch {
			case strings.HasPrefix(asked.URL.Path, "/rest/config/folders/"):
				fmt.Fprintf(to, `{"id":"docs","type":%q,"maxConflicts":10}`, row.types[look])
			case asked.URL.Path == "/rest/db/status":
				fmt.Fprintf(to, `{"state":%q}`, row.states[look])
			default:
				io.WriteString(to, "[]")
			}
		}))
		sum := sha256.Sum256(server.Certificate().Raw)
		remote := &rest.Remote{Address: server.Listener.Addr().String(), Key: "key", Certificate: &sum}
		observing := &observing{asking: asking{told: map[int]map[string]*part.Folder{}}}
		err := observing.askOf(0, remote, "docs")
		if look++; err == nil {
			err = observing.askOf(0, remote, "docs")
		}
		server.Close()
		if (err == nil) != (row.err == nil) || row.err == errOtherwise && err != errOtherwise {
			t.Errorf("%s: %v", why, err)
		}
		told := ""
		if about := observing.asking.told[0]["docs"]; err == nil && about != nil {
			told = about.Kind + " " + about.Rest.State
		}
		if told != row.told {
			t.Errorf("%s: %q, not %q", why, told, row.told)
		}
	}
}

var errAny = fmt.Errorf("some error")
