package diskhalf

import (
	"bytes"
	"encoding/pem"
	"fmt"
	"io"
	"net/http"
	"net/http/httptest"
	"os"
	"path/filepath"
	"reflect"
	"strings"
	"testing"

	"syncthing-audit/disk"
	"syncthing-audit/part"
)

// configWith writes a config.xml with a folder in a directory, and gives its path.
func configWith(t *testing.T, directory, kind, address string, isTLS bool) string {
	t.Helper()
	path := filepath.Join(t.TempDir(), "config.xml")
	text := fmt.Sprintf(`<configuration version="50"><folder id="docs" path="%s" type="%s" ignorePerms="true"><maxConflicts>-1</maxConflicts><versioning type="simple"><fsPath>/srv/old</fsPath></versioning>`+
		`<modTimeWindowS>2</modTimeWindowS><ignoreDelete>true</ignoreDelete><sendOwnership>true</sendOwnership><device id="one"></device></folder>`+
		`<device id="one"><paused>true</paused></device><device id="two"><paused>true</paused></device>`+
		`<gui enabled="true" tls="%v"><address>%s</address><apikey>secret</apikey></gui></configuration>`, directory, kind, isTLS, address)
	if err := os.WriteFile(path, []byte(text), 0o600); err != nil {
		t.Fatal(err)
	}
	return path
}

// headBy gives the head of a part for which a config.xml is read.
func headBy(t *testing.T, config, room string, areTold bool) (*part.Head, error) {
	pool := disk.NewPool(1)
	defer pool.Close()
	asked := askedFor(room)
	asked.Config, asked.Paths = config, areTold
	var text bytes.Buffer
	if _, err := Write(&text, asked, pool); err != nil {
		return nil, err
	}
	reader, err := part.NewReader(&text)
	if err != nil {
		t.Fatal(err)
	}
	return reader.Head(), nil
}

// A part has what is configured of a folder, and whether Syncthing is idle with it. The API key goes to that Syncthing alfolder.
func TestWhatIsConfigured(t *testing.T) {
	room, asked := roomWith(t, "a"), []string{}
	answering := func(w http.ResponseWriter, r *http.Request) {
		asked = append(asked, r.URL.String()+" "+r.Header.Get("X-API-Key"))
		io.WriteString(w, `{"state":"idle"}`)
	}
	plain, secret := httptest.NewServer(http.HandlerFunc(answering)), httptest.NewTLSServer(http.HandlerFunc(answering))
	defer plain.Close()
	defer secret.Close()
	at := func(server *httptest.Server) string { return server.Listener.Addr().String() }
	certified := configWith(t, room, "receiveonly", at(secret), true)
	text := pem.EncodeToMemory(&pem.Block{Type: "CERTIFICATE", Bytes: secret.Certificate().Raw})
	if err := os.WriteFile(filepath.Join(filepath.Dir(certified), "https-cert.pem"), text, 0o600); err != nil {
		t.Fatal(err)
	}
	for config, due := range map[string]part.Rest{
		configWith(t, room, "receiveonly", at(plain), false): {State: part.RestIdle},
		certified: {State: part.RestIdle},
		configWith(t, room, "receiveonly", at(secret), true):        {State: part.RestUnasked, Why: "its page's certificate can't be read"},
		configWith(t, room, "receiveonly", "192.0.2.1:8384", false): {State: part.RestUnasked, Why: "its page has no address of this machine"},
		configWith(t, room, "receiveonly", "/run/page", false):      {State: part.RestUnasked, Why: "its page has no address of this machine"},
	} {
		areTold := config == certified
		head, err := headBy(t, config, room, areTold)
		if err != nil {
			t.Fatal(err)
		}
		folder, versions := head.Folders[0], &part.Versions{Kind: part.VersionsSimple}
		if areTold {
			versions.Place = "/srv/old"
		}
		options := part.Options{MaxConflicts: -1, IgnoresDeletions: true, Versions: versions}
		if folder.Kind != "receive-only" || !folder.IgnoresPermissions || folder.TimeWindow != 2 || !folder.ScansAttributes || !reflect.DeepEqual(*folder.Options, options) ||
			len(folder.PausedDevices) != 1 || folder.PausedDevices[0] != "one" || *folder.Rest != due {
			t.Errorf("%+v, %+v, %+v", folder, folder.Options, folder.Rest)
		}
	}
	if len(asked) != 2 || asked[0] != "/rest/db/status?folder=docs secret" {
		t.Errorf("%q", asked)
	}
}

// A config.xml that isn't of the directory that is walked, or of a folder that this program doesn't read, is refused.
func TestWhatIsNoConfiguration(t *testing.T) {
	room, other := roomWith(t, "a"), t.TempDir()
	none := filepath.Join(other, "nfolder.xml")
	if err := os.WriteFile(none, []byte("none"), 0o600); err != nil {
		t.Fatal(err)
	}
	for config, told := range map[string]string{configWith(t, other, "sendreceive", "", false): "another one is walked", none: "is no config.xml",
		configWith(t, room, "receiveencrypted", "", false): "which this program doesn't read", filepath.Join(other, "missing.xml"): "no such file"} {
		if _, err := headBy(t, config, room, false); err == nil || !strings.Contains(err.Error(), told) {
			t.Errorf("%s: %v", told, err)
		}
	}
}
