package observing

import (
	"crypto/sha256"
	"encoding/json"
	"net/http"
	"net/http/httptest"
	"strings"
	"sync"
	"testing"

	"github.com/syncthing/syncthing/lib/protocol"
	"syncthing-audit/exit"
	"syncthing-audit/fixture/stranger"
	"syncthing-audit/rest"
)

// page is the REST API of a device's own Syncthing, which says what a test has it say.
type page struct {
	mutex   sync.Mutex
	says    map[string]interface{} // by what is asked for
	scanned []string
}

// change has it say something else.
func (p *page) change(what string, said interface{}) {
	p.mutex.Lock()
	defer p.mutex.Unlock()
	p.says[what] = said
}

func (p *page) ServeHTTP(to http.ResponseWriter, asked *http.Request) {
	p.mutex.Lock()
	defer p.mutex.Unlock()
	what := strings.TrimPrefix(asked.URL.Path, "/rest/")
	if asked.Method == http.MethodPost {
		p.scanned = append(p.scanned, asked.URL.Query().Get("folder"))
	}
	if said, is := p.says[what]; is {
		_ = json.NewEncoder(to).Encode(said)
	} else {
		http.Error(to, "none", http.StatusNotFound)
	}
}

// withPages gives each device a REST API that says what is right of it.
func (w *world) withPages() (pages []*page) {
	w.asked.APIs = map[protocol.DeviceID]*rest.Remote{}
	for _, device := range w.devices {
		sharing := []map[string]string{{"deviceID": w.observer.String()}}
		folder := map[string]interface{}{"id": "docs", "type": "sendreceive", "maxConflicts": 10, "devices": sharing}
		paused := map[string]interface{}{"id": "paused", "type": "sendreceive", "maxConflicts": 10, "devices": sharing, "paused": true}
		others := map[string]interface{}{"id": "others", "type": "sendreceive", "maxConflicts": 10}
		said := &page{says: map[string]interface{}{"system/status": map[string]string{"myID": device.ID.String()}, "config/folders": []interface{}{folder, paused, others},
			"config/folders/docs": folder, "config/devices": []string{}, "db/status": map[string]string{"state": "idle"}, "db/scan": ""}}
		server := httptest.NewTLSServer(said)
		w.t.Cleanup(server.Close)
		sum := sha256.Sum256(server.Certificate().Raw)
		w.asked.APIs[device.ID] = &rest.Remote{Address: server.Listener.Addr().String(), Key: "key", Certificate: &sum}
		pages = append(pages, said)
	}
	return pages
}

// takeScanned takes of what a scan was asked since it was called last.
func (p *page) takeScanned() string {
	p.mutex.Lock()
	defer p.mutex.Unlock()
	defer func() { p.scanned = nil }()
	return strings.Join(p.scanned, " ")
}

// What a device's own Syncthing says is told where it fits. Where it fails, at whichever step, the device costs nothing else: what the wire doesn't show isn't known.
func TestWhatSyncthingsSayOfThemselves(t *testing.T) {
	hurry(t)
	here := newWorld(t, 2, map[string]string{"a": "text"})
	pages := here.withPages()
	unseen := func(told string) bool { return strings.Contains(told, "whether the folder only receives") }
	if told := here.expect("all is said", exit.Partial, inStep); unseen(told) || strings.Contains(told, "--rest") || pages[0].takeScanned() != "" {
		t.Error(told)
	}
	for _, row := range []struct {
		what string
		said interface{}
		told string
	}{
		{"system/status", map[string]string{"myID": here.devices[0].ID.String()}, "--rest: not asked: another device answers there; what the wire doesn't show of it isn't known"},
		{"config/folders/docs", map[string]interface{}{"id": "docs", "type": "odd", "maxConflicts": 1}, "--rest: not asked at the first look: the folder is of type odd"},
	} {
		pages[1].mutex.Lock()
		had := pages[1].says[row.what]
		pages[1].mutex.Unlock()
		pages[1].change(row.what, row.said)
		told := here.expect(row.what, exit.Partial, inStep, here.asked.Parts[1]+": "+row.told)
		if !unseen(told) || strings.Contains(told, here.asked.Parts[0]+": --rest") {
			t.Errorf("%s: %s", row.what, told)
		}
		pages[1].change(row.what, had)
	}
	here.devices[1].Change(func(state *stranger.State) { state.SendsOnly = true })
	here.expect("another kind", exit.Partial, inStep, here.asked.Parts[1]+": --rest: not as seen over the wire: ")
	here.devices[1].Change(func(state *stranger.State) { state.SendsOnly = false })
	here.asked.Rescan = true
	here.expect("a scan before", exit.Partial, inStep)
	for place, said := range pages {
		if scanned := said.takeScanned(); scanned != "docs" {
			t.Errorf("device %d scans %q", place, scanned)
		}
	}
	pages[0].mutex.Lock()
	delete(pages[0].says, "db/scan")
	pages[0].mutex.Unlock()
	here.expect("no scan", exit.Partial, here.asked.Parts[0]+": --rest: not scanned: folder docs isn't scanned: ")
	pages[0].mutex.Lock()
	delete(pages[0].says, "config/folders")
	pages[0].mutex.Unlock()
	here.expect("no folders", exit.Partial, here.asked.Parts[0]+": --rest: not scanned: ")
	here.asked.Rescan = false
	here.asked.APIs = map[protocol.DeviceID]*rest.Remote{{9}: here.asked.APIs[here.devices[0].ID]}
	here.expect("none of them", exit.Refused, "--rest names none of the devices that are asked")
}

// A scan is asked of those folders alone that are asked for.
func TestScansOfSomeFolders(t *testing.T) {
	here := newWorld(t, 1, map[string]string{"a": "text"})
	pages := here.withPages()
	here.asked.Rescan, here.asked.Folders = true, []string{"docs"}
	here.expect("docs", exit.Partial, inStep)
	if scanned := pages[0].takeScanned(); scanned != "docs" {
		t.Errorf("%q", scanned)
	}
	here.devices[0].Change(func(state *stranger.State) { state.Records["others"] = nil })
	here.asked.Folders = []string{"others"}
	here.expect("one that isn't shared", exit.Refused, "there is nothing to audit")
	if scanned := pages[0].takeScanned(); scanned != "" {
		t.Errorf("%q", scanned)
	}
}

// Versions of local changes are asked for, by the device's own Syncthing, of those alone that have them. A Syncthing that fails at it is dropped.
func TestVersionsThatAreAskedFor(t *testing.T) {
	here := newWorld(t, 2, map[string]string{"a": "text"})
	pages := here.withPages()
	for _, said := range pages {
		said.change("config/folders/docs", map[string]interface{}{"id": "docs", "type": "receiveonly", "maxConflicts": 10})
	}
	here.devices[0].Change(func(state *stranger.State) {
		local := stranger.Record("local", "mine", 2)
		local.Version.Counters, local.LocalFlags, local.RawInvalid = nil, protocol.FlagLocalReceiveOnly, true
		state.Records["docs"] = append(state.Records["docs"], local)
		state.Disk["docs/local"] = "mine"
	})
	others := here.othersOf(here.devices[1], 2)
	here.devices[1].Change(func(state *stranger.State) { state.Others = others })
	here.expect("no answer", exit.NotSettled, here.asked.Parts[0]+": --rest: not asked at the first look: ")
	pages[0].change("db/file", map[string]interface{}{"local": map[string]interface{}{"sequence": 2, "version": []string{here.devices[0].ID.String()[:7] + ":4"}}})
	if told := here.expect("an answer", exit.NotSettled); strings.Contains(told, "--rest") {
		t.Error(told)
	}
}

// A Syncthing that answers again after it failed is told once.
func TestASyncthingThatAnswersAgain(t *testing.T) {
	here := newWorld(t, 1, map[string]string{"a": "text"})
	pages := here.withPages()
	var log written
	news := newNews()
	for place, due := range []string{"--rest: not asked: ", "", "--rest: it answers again, after it failed at 2 looks since ", ""} {
		had := log.String()
		if place < 2 {
			pages[0].change("system/status", map[string]string{})
		} else {
			pages[0].change("system/status", map[string]string{"myID": here.devices[0].ID.String()})
		}
		meeting := here.meeting("")
		meeting.news, meeting.log = news, &log
		meeting.addresses[0].where, meeting.asked.Disks = here.devices[0].Address, nil
		if err := meeting.listen(); err != nil {
			t.Fatal(err)
		}
		err := meeting.look()
		meeting.close()
		if err != nil {
			t.Fatal(err)
		}
		if told := strings.TrimPrefix(log.String(), had); (told == "") != (due == "") || !strings.Contains(told, due) {
			t.Errorf("look %d: %q", place, told)
		}
	}
}
