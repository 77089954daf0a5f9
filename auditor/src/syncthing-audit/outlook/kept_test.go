package outlook

import (
	"reflect"
	"testing"

	"syncthing-audit/forecast"
)

// A name is one thing where all devices have the same at it, or none has anything; the minority are those that haven't what most have.
func TestWhoHasNotWhatMostHave(t *testing.T) {
	for seed := int64(0); seed < 2000; seed++ {
		_, group, answer := drawn(seed)
		end, devices := &answer.Ends[0], len(group.Devices)
		things, count, order := thingsOf(anyDevices, end)["a"], map[string]int{}, []string{}
		for member := 0; member < devices; member++ {
			key := standsAt(end, member, "a")
			if count[key]++; count[key] == 1 && key != "" {
				order = append(order, key)
			}
			if stands(things, idOf(member)) != (key != "") {
				t.Fatalf("%d: at %d: %+v", seed, member, things)
			}
		}
		if isOne(things, devices) != (len(count) == 1) {
			t.Fatalf("%d: %+v", seed, things)
		}
		most := ""
		for _, key := range order {
			if most == "" && count[key] >= count[""] || most != "" && count[key] > count[most] {
				most = key
			}
		}
		var due []int
		for member := 0; member < devices; member++ {
			if standsAt(end, member, "a") != most {
				due = append(due, member)
			}
		}
		if told := (&judge{group: group}).minority(things); !reflect.DeepEqual(told, due) {
			t.Fatalf("%d: %v, not %v: %+v", seed, told, due, things)
		}
	}
}

// Devices keep a name otherwise than others by all reasons of all ends; at an end without any, those that haven't what most have do. Each reason says whether it
// is one at some ends alone.
func TestWhyDevicesKeepAName(t *testing.T) {
	reasons, inSome := map[forecast.Why]int{}, 0
	for seed := int64(0); seed < 2000; seed++ {
		_, group, answer := drawn(seed)
		judge, due := newJudge(group, answer, nil), map[int]map[forecast.Why]int{}
		add := func(member int, why forecast.Why) {
			if due[member] == nil {
				due[member] = map[forecast.Why]int{}
			}
			due[member][why]++
		}
		for place := range answer.Ends {
			end, of, isUnseen, stuck := &answer.Ends[place], map[int]forecast.Why{}, false, 0
			for at, kept := range append(append([]forecast.Stuck{}, end.Apart...), end.Stuck...) {
				if kept.Name == "a" {
					of[kept.Device] = kept.Why
					if at >= len(end.Apart) {
						stuck++
					}
				}
			}
			for _, why := range of {
				isUnseen = isUnseen || why == forecast.NotSeen
			}
			things := judge.ends[place]["a"]
			if isOne(things, len(group.Devices)) && stuck == 0 && !isUnseen {
				continue
			}
			for member, why := range of {
				add(member, why)
			}
			if len(of) == 0 {
				for _, member := range judge.minority(things) {
					add(member, Differs)
				}
			}
		}
		all := 0
		for _, whys := range due {
			all += len(whys)
		}
		told := judge.keptOf(&group.Names[0])
		for at, kept := range told {
			ends, isFirst := due[kept.member][kept.Why], at == 0
			isBehind := isFirst || told[at-1].member < kept.member || told[at-1].member == kept.member && told[at-1].Why < kept.Why
			if ends == 0 || kept.InSome != (ends < len(answer.Ends)) || kept.Device != idOf(kept.member) || !isBehind {
				t.Fatalf("%d: %+v, not %v", seed, told, due)
			}
			reasons[kept.Why]++
			inSome += count(kept.InSome)
		}
		if len(told) != all {
			t.Fatalf("%d: %+v, not %v", seed, told, due)
		}
	}
	for _, why := range []forecast.Why{Differs, forecast.OnlySends, forecast.NotSeen, forecast.NoSource} {
		if reasons[why] == 0 {
			t.Errorf("no name was drawn that is kept by %v", why)
		}
	}
	if inSome == 0 {
		t.Error("no reason was drawn that is one at some ends alone")
	}
}
