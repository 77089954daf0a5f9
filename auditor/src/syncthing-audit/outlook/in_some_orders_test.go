package outlook

import (
	"reflect"
	"testing"
	"time"

	"syncthing-audit/forecast"
)

// Where orders come to the same disks for several reasons, each is told, and whether it is one in some orders alone. A time that depends on the order isn't told.
func TestWhatDependsOnTheOrderAtOneEnd(t *testing.T) {
	at := func(when int64) []forecast.Place {
		return []forecast.Place{{Name: "a", Node: forecast.Node{Type: forecast.File, Time: when, Content: forecast.Content{Size: 2, Hash: "x"}}}}
	}
	end := func(when int64, stuck ...forecast.Stuck) forecast.End {
		return forecast.End{Disks: [][]forecast.Place{at(7), at(when), nil}, Stuck: stuck}
	}
	group := forecast.World{Devices: []forecast.Device{{ID: "L"}, {ID: "N"}, {ID: "S"}}, Names: []forecast.Name{{Name: "a", Own: make([]*forecast.Record, 3), Disk: make([]*forecast.Node, 3)}}}
	stuck := func(device int, why forecast.Why) forecast.Stuck {
		return forecast.Stuck{Device: device, Name: "a", Why: why}
	}
	sends, noSource := stuck(2, forecast.OnlySends), stuck(2, forecast.NoSource)
	kept := func(inSome bool, whys ...forecast.Why) (all []Kept) {
		for _, why := range whys {
			all = append(all, Kept{Device: "S", Why: why, InSome: inSome, member: 2})
		}
		return all
	}
	first := time.Unix(0, 7).UTC()
	for why, row := range map[string]struct {
		ends []forecast.End
		kept []Kept
		when *time.Time
	}{
		"one reason":                     {[]forecast.End{end(7, sends)}, kept(false, forecast.OnlySends), &first},
		"one reason in all orders":       {[]forecast.End{end(7, sends), end(7, sends, stuck(2, forecast.OnlySends))}, kept(false, forecast.OnlySends), &first},
		"two reasons":                    {[]forecast.End{end(7, sends), end(7, noSource)}, kept(true, forecast.NoSource, forecast.OnlySends), &first},
		"a reason that nobody knows":     {[]forecast.End{end(7, sends), end(7)}, kept(true, Differs, forecast.OnlySends), &first},
		"no reason that anybody knows":   {[]forecast.End{end(7)}, kept(false, Differs), &first},
		"two reasons the other way":      {[]forecast.End{end(7, noSource), end(7, sends)}, kept(true, forecast.NoSource, forecast.OnlySends), &first},
		"a time that depends on it":      {[]forecast.End{{Disks: [][]forecast.Place{at(7), at(7), at(7)}}, {Disks: [][]forecast.Place{at(8), at(8), at(8)}}}, nil, nil},
		"right, and stuck in some order": {[]forecast.End{{Disks: [][]forecast.Place{at(7), at(7), at(7)}}, {Disks: [][]forecast.Place{at(7), at(7), at(7)}, Stuck: []forecast.Stuck{sends}}}, kept(true, forecast.OnlySends), &first},
	} {
		told := newJudge(&group, &forecast.Answer{Names: []string{"a"}, Ends: row.ends, IsAll: true}, nil).name(&group.Names[0])
		if !reflect.DeepEqual(told.Kept, row.kept) || len(told.Ends) != 1 || !reflect.DeepEqual(told.Ends[0][0].Modified, row.when) {
			t.Errorf("%s: %+v, ends %+v", why, told.Kept, told.Ends)
		}
	}
}
