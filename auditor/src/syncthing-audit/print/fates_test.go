package print

import (
	"reflect"
	"strings"
	"testing"

	"syncthing-audit/forecast"
	"syncthing-audit/forecast/read"
	"syncthing-audit/outlook"
	"syncthing-audit/part"
)

// copyOf gives the same as a conflict copy.
func copyOf(thing outlook.Thing) outlook.Thing {
	thing.IsCopy = true
	return thing
}

var (
	directory = outlook.Thing{Devices: at(2), Type: forecast.Directory}
	symlink   = outlook.Thing{Devices: at(0, 1, 2), Type: forecast.Symlink, Target: "a b"}
)

// ends gives ends of one thing each, or of nothing.
func ends(all ...[]outlook.Thing) [][]outlook.Thing { return all }

// things gives what stands at an end, or now.
func things(all ...outlook.Thing) []outlook.Thing { return all }

// A person reads of a name what each device has in the end by who has it now, what is kept as a copy, what goes, and why devices keep it otherwise.
func TestWhatBecomesOfAName(t *testing.T) {
	now := things(file(5, "aa", 0), file(7, "bb", 1))
	for _, row := range []struct {
		name   outlook.Name
		isMany bool
		told   string
	}{
		{outlook.Name{Now: now, Ends: ends(things(file(5, "aa", 0, 1, 2))), IsAll: true}, false, "all devices then have what laptop has now; what server has now goes"},
		{outlook.Name{Now: now, Ends: ends(things(file(5, "aa", 0, 2), file(7, "bb", 1))), IsAll: true}, false, "laptop, phone then have what laptop has now; server keeps what it has"},
		{outlook.Name{Now: things(file(5, "aa", 0, 1)), Ends: ends(things(file(5, "aa", 1, 0))), IsAll: true}, false, "laptop, server keep what they have; phone then has nothing there"},
		{outlook.Name{Now: things(file(5, "aa", 0, 1)), Ends: ends(things(file(5, "aa", 1))), IsAll: true}, false, "server keeps what it has; laptop, phone then have nothing there"},
		{outlook.Name{Now: things(file(5, "aa", 2, 1)), Ends: ends(nil), IsAll: true}, false, "no device has it then; what phone, server have now goes"},
		{outlook.Name{Now: now, Ends: ends(things(file(7, "bb", 0, 1, 2), copyOf(file(5, "aa", 2, 0)))), IsAll: true}, false,
			"all devices then have what server has now; what laptop has now is kept as a conflict copy on laptop, phone"},
		{outlook.Name{Now: things(directory, file(5, "aa", 0)), Ends: ends(things(symlink)), IsAll: true}, false, "all devices then have a symlink that no disk has there now; what laptop has now goes"},
		{outlook.Name{Now: things(symlink), Ends: ends(things(file(5, "aa", 1))), IsAll: true}, false,
			"server then has a file that no disk has under this name now; laptop, phone then have nothing there; what laptop, phone, server have now goes"},
		{outlook.Name{Ends: ends(things(file(5, "aa", 0, 1), directory)), IsAll: true}, false,
			"laptop, server then have a file that no disk has under this name now; phone then has a directory that no disk has there now"},
		{outlook.Name{Now: now, Ends: ends(things(file(5, "aa", 0, 1, 2)), things(file(7, "bb", 0, 1, 2)))}, false,
			"one of several ends, by the order of what happens: all devices then have what laptop has now; what server has now goes; or " +
				"all devices then have what server has now; what laptop has now goes, in all orders tried"},
		{outlook.Name{Now: now, Ends: ends(nil, things(file(5, "aa", 0, 1, 2)), nil, nil), IsAll: true}, true,
			"of each, one of several ends, by the order of what happens: no device has it then; what laptop has now goes; what server has now goes; or " +
				"all devices then have what laptop has now; what server has now goes; or no device has it then; what laptop has now goes; what server has now goes; or to 1 more end"},
		{outlook.Name{Ends: ends(nil, nil, nil), IsAll: true}, false,
			"one of several ends, by the order of what happens: no device has it then; or no device has it then; or no device has it then"},
		{outlook.Name{Now: now, Ends: ends(things(file(5, "aa", 0), file(7, "bb", 1))), IsAll: true,
			Kept: []outlook.Kept{{Device: "SERVER", Why: forecast.NotSeen}, {Device: "PHONE", Why: forecast.OnlySends}, {Device: "LAPTOP", Why: forecast.NotSeen}}}, false,
			"laptop keeps what it has; server keeps what it has; phone then has nothing there (laptop, server: " + wordsOfKept[forecast.NotSeen] + "; phone: " + wordsOfKept[forecast.OnlySends] + ")"},
		{outlook.Name{Now: now, Ends: ends(things(file(5, "aa", 0), file(7, "bb", 1))), IsAll: true,
			Kept: []outlook.Kept{{Device: "PHONE", Why: forecast.NoSource, InSome: true}, {Device: "PHONE", Why: forecast.OnlySends}}}, false,
			"laptop keeps what it has; server keeps what it has; phone then has nothing there (phone: " + wordsOfKept[forecast.NoSource] + ", in some order; phone: " + wordsOfKept[forecast.OnlySends] + ")"},
	} {
		if told := Foretold(&row.name, devices, strings.ToLower, row.isMany); told != row.told {
			t.Errorf("%s\nnot\n%s", told, row.told)
		}
	}
}

// Of a device that isn't audited it is told who shares the folder with it.
func TestWhoSharesWithADeviceThatIsNotAudited(t *testing.T) {
	of := &outlook.Outlook{Unknown: []outlook.Group{{Why: "device-left-out", Devices: at(2, 0)}}}
	if told := WhyUnknown(of, nil, strings.ToLower); told != "a device that isn't audited shares the folder with laptop, phone; to know it, audit that device, too, or unshare the folder with it if it is gone for good" {
		t.Error(told)
	}
}

// Why a name isn't known is told by its own reason or, of one that isn't listed, by the first one: with all devices of that, and what makes it known.
func TestWhyANameIsNotKnown(t *testing.T) {
	of := &outlook.Outlook{Unknown: []outlook.Group{{Why: "paused", Devices: at(2, 0)}, {Why: "budget"}, {Why: "damaged", Devices: at(1)}, {Why: string(read.NeverTold), Devices: at(1)}}}
	paused := unknowns["paused"].why + " (laptop, phone); to know it, " + unknowns["paused"].toKnow
	for _, row := range []struct {
		name *outlook.Name
		told string
	}{
		{nil, paused}, {&outlook.Name{Why: "paused"}, paused}, {&outlook.Name{Why: "budget"}, unknowns["budget"].why},
		{&outlook.Name{Why: read.Why("damaged")}, unknowns["damaged"].why + " (server); to know it, " + unknowns["damaged"].toKnow},
		{&outlook.Name{Why: read.NeverTold}, "a device may never tell a change of it (server); to know it, once what is to stay is saved, stop Syncthing there, and " + part.ResetDeltas + "; then let all finish, and audit again"},
	} {
		if told := WhyUnknown(of, row.name, strings.ToLower); told != row.told {
			t.Errorf("%+v: %s, not %s", row.name, told, row.told)
		}
	}
	if told := WhyUnknown(&outlook.Outlook{Unknown: []outlook.Group{{Why: string(read.NeverTold)}}}, nil, strings.ToLower); told != unknowns[string(read.NeverTold)].why {
		t.Error("a device is to be reset, and none is known:", told)
	}
	if told := WhyUnknown(&outlook.Outlook{}, nil, strings.ToLower); told != "more names differ than are listed" {
		t.Error(told)
	}
}

// A name has its own plan, or that of the next directory above it which is copied with what is below it.
func TestThePlanOfEachName(t *testing.T) {
	plans := []*outlook.Plan{{Names: []part.Bytes{"a", "x/y"}, Below: 1}, {Names: []part.Bytes{"a/b"}, Below: 2}, {Names: []part.Bytes{"a/b/c", "alone"}}, {Names: []part.Bytes{"/", "."}, Below: 1}}
	planOf := PlansByName(&outlook.Outlook{Plans: plans})
	for name, due := range map[string]*outlook.Plan{"a": plans[0], "a/z": plans[0], "x/y": plans[0], "x/y/z/z": plans[0], "a/b": plans[1], "a/b/d": plans[1], "a/b/c": plans[2], "a/b/c/d": plans[1],
		"alone": plans[2], "alone/z": nil, "ab": nil, "x": nil, "/z": nil, "z": nil} {
		if found := planOf(name); found != due {
			t.Errorf("%s: %+v, not %+v", name, found, due)
		}
	}
}

// A plan with a goal leads to what some devices have now, in the folder's order; one that saves leads to nothing.
func TestToWhatPlansLead(t *testing.T) {
	several, single := file(5, "aa", 2, 0), file(5, "aa", 1)
	told := []string{Leads(&outlook.Plan{}, strings.ToLower), Leads(&outlook.Plan{Goal: &several}, strings.ToLower), Leads(&outlook.Plan{Goal: &single}, strings.ToLower)}
	if due := []string{"", "all devices then have what phone, laptop have now", "all devices then have what server has now"}; !reflect.DeepEqual(told, due) {
		t.Errorf("%q", told)
	}
}

// What is proved by records is told where the model foretells no more: with the folder where nothing else is told of it or not all, and the pairs to come.
func TestWhatIsProvedOfAFolder(t *testing.T) {
	none, single, several := int64(0), int64(1), int64(1234)
	const proved = "  proved for devices that keep a few rules (docs/argument/orderly-peers.md): whatever comes first, nothing goes but what a recorded change replaces,\n  and no conflict copy is made\n"
	const head = "\nof docs it is proved, by its records:\n"
	for _, row := range []struct {
		of    *outlook.Outlook
		pairs *int64
		told  string
	}{
		{&outlook.Outlook{}, nil, head + proved}, {&outlook.Outlook{}, &several, head + "  still to come: 1,234 pairs of a name and a device\n" + proved},
		{&outlook.Outlook{}, &single, head + "  still to come: 1 pair of a name and a device\n" + proved},
		{&outlook.Outlook{Names: 2, Right: 1, NotKnown: 1}, &none, head + "  still to come: 0 pairs of a name and a device\n" + proved},
		{&outlook.Outlook{Names: 1, Right: 1}, nil, proved}, {&outlook.Outlook{Names: 1, Deleted: 1}, &single, "  still to come: 1 pair of a name and a device\n" + proved},
		{&outlook.Outlook{Names: 1, Lost: 1}, &single, ""}, {&outlook.Outlook{Names: 1, Depends: 1}, &single, ""}, {&outlook.Outlook{Names: 1, Stays: 1}, nil, ""}, {&outlook.Outlook{Names: 1, Changed: 1}, nil, ""},
	} {
		if told := readBy(func(p *Person) { p.Converging("docs", row.of, row.pairs) }); told != row.told {
			t.Errorf("%+v:%s\nnot\n%s", row.of, told, row.told)
		}
	}
}
