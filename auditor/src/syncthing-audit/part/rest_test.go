package part

import (
	"reflect"
	"strings"
	"testing"
)

// A folder was at rest where Syncthing was seen idle, or did nothing there; in any other case it is said why that isn't known.
func TestWhetherAFolderWasAtRest(t *testing.T) {
	looked, seen, halves := &Head{Look: &Look{}}, &Head{Look: &Look{}, Wire: &Wire{}}, &Head{Look: &Look{}, Wire: &Wire{}, Half: &Half{}}
	for _, one := range []struct {
		head *Head
		rest *Rest
		told string
	}{
		{&Head{}, nil, ""},
		{looked, &Rest{State: RestIdle}, ""},
		{looked, &Rest{State: RestPaused}, ""},
		{looked, &Rest{State: RestStopped}, ""},
		{looked, nil, "an older syncthing-audit"},
		{looked, &Rest{State: RestUnasked, Why: "nobody listens"}, "couldn't be asked whether it is idle: nobody listens"},
		{looked, &Rest{State: "scanning"}, "it was 'scanning'"},
		{looked, &Rest{State: "error"}, "it was 'error'"},
		{seen, nil, ""},
		{seen, &Rest{State: RestIdle}, ""},
		{seen, &Rest{State: "scanning"}, "never seen idle between the looks: it was 'scanning'"},
		{seen, &Rest{State: "error", Why: "no marker", Wanted: &Wanted{}}, "wasn't idle at both looks: it was 'error' (no marker)"},
		{halves, nil, "isn't seen over the wire"},
		{halves, &Rest{State: RestIdle}, ""},
		{halves, &Rest{State: "scanning"}, "it was 'scanning'"},
	} {
		told := one.head.WhyBusy(&Folder{Rest: one.rest})
		if (told == "") != (one.told == "") || !strings.Contains(told, one.told) {
			t.Errorf("%+v: %q", one.rest, told)
		}
	}
}

// What Syncthing needs, or fails at, is told where it was asked; it fails at comes first.
func TestWhatSyncthingWants(t *testing.T) {
	for told, rest := range map[string]*Rest{
		"": {Wanted: &Wanted{}},
		"Syncthing says that it still needs names there: 2": {Wanted: &Wanted{Count: Count{Names: 2}}},
		"Syncthing says that it fails at names there: 1":    {Wanted: &Wanted{Count: Count{Names: 2}, Errors: 1}},
	} {
		if said := rest.WhyWanted(); said != told {
			t.Errorf("%q, not %q", said, told)
		}
	}
	if (*Rest)(nil).WhyWanted()+(&Rest{}).WhyWanted() != "" {
		t.Error("nobody asked, and something is told")
	}
}

// Of two answers the one counts by which less is at rest; who couldn't ask says nothing.
func TestTheWorseOfTwoAnswers(t *testing.T) {
	idle, busy, unasked, wanted := &Rest{State: RestIdle}, &Rest{State: "scanning"}, &Rest{State: RestUnasked}, &Rest{State: RestIdle, Wanted: &Wanted{}}
	for _, one := range []struct{ a, b, due *Rest }{
		{nil, nil, nil}, {nil, idle, idle}, {idle, nil, idle}, {idle, busy, busy}, {busy, idle, busy}, {unasked, idle, idle}, {idle, unasked, idle}, {unasked, busy, busy},
		{unasked, nil, unasked}, {idle, wanted, wanted}, {wanted, idle, wanted}, {busy, wanted, busy},
	} {
		if made := one.a.Worse(one.b); made != one.due {
			t.Errorf("%+v and %+v: %+v", one.a, one.b, made)
		}
	}
}

// What is configured is taken where the wire doesn't show it otherwise: a folder that only sends is seen, and one that sends and receives may only receive.
func TestWhatIsConfiguredIsTaken(t *testing.T) {
	configured := &Folder{Kind: "receive-only", Options: &Options{MaxConflicts: 3}, TimeWindow: 2, ScansAttributes: true, PausedDevices: []string{"x"}, Rest: &Rest{State: RestIdle}}
	for kind, isTaken := range map[string]bool{"send-receive": true, "receive-only": true, "send-only": false} {
		made := &Folder{ID: "docs", Kind: kind, IgnoresPermissions: true}
		err := made.TakeConfigured(configured)
		due := &Folder{ID: "docs", Kind: kind, IgnoresPermissions: true}
		if isTaken {
			*due = *configured
			due.ID, due.IgnoresPermissions = "docs", true
		}
		if (err == nil) != isTaken || !reflect.DeepEqual(made, due) {
			t.Errorf("%s: %+v, %v", kind, made, err)
		}
	}
	asked := &Folder{Kind: "send-receive", Rest: &Rest{State: RestIdle}}
	if err := asked.TakeConfigured(configured); err == nil {
		t.Error("Syncthing said that it sends, and its config.xml that it only receives")
	}
}
