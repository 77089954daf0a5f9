package script

import (
	"strings"
	"testing"
	"time"

	"syncthing-audit/outlook"
	"syncthing-audit/part"
	"syncthing-audit/summary"
)

// planOf gives a plan of one step on a device for one name.
func planOf(device, name string) *outlook.Plan {
	return &outlook.Plan{Names: []part.Bytes{part.Bytes(name)}, Count: 1, Steps: []outlook.Step{{Act: outlook.Save, Device: device}}}
}

// In a script's name a device's name keeps what is a letter, a digit or a hyphen of ASCII, and 40 letters at most. Of its id there are seven.
func TestNamesOfScripts(t *testing.T) {
	const id = "ABCDEFG-HIJKLMN"
	for _, row := range []struct{ device, kept string }{
		{"-./09:;", "-__09__"},
		{"@AZ[`az{", "_AZ__az_"},
		{",-.", "_-_"},
		{"BMYbmy158", "BMYbmy158"},
		{"my nas_1", "my_nas_1"},
		{"\u00e9\u0141\uff11\u2010z", "____z"},
		{strings.Repeat("a", 40), strings.Repeat("a", 40)},
		{strings.Repeat("\u00e9", 39) + "bcd", strings.Repeat("_", 39) + "b"},
	} {
		told := summaryOf([]*outlook.Plan{planOf(id, "a")})
		told.Devices = []summary.Device{{ID: id, Name: row.device}}
		scripts := Of(told, time.Unix(0, 0))
		if due := "1-" + row.kept + "-ABCDEFG.sh"; len(scripts) != 1 || scripts[0].Name != due {
			t.Errorf("%q: %d scripts, the first is %q, not %q", row.device, len(scripts), scripts[0].Name, due)
		}
	}
}

// Scripts come by their rounds, and those of one round by their names, wherever the devices stand in the plans.
func TestOrderOfScripts(t *testing.T) {
	for _, devices := range [][]string{{ids[0], ids[1], ids[2]}, {ids[2], ids[1], ids[0]}, {ids[1], ids[2], ids[0]}} {
		var plans []*outlook.Plan
		for _, device := range devices {
			plans = append(plans, planOf(device, "a"))
		}
		for place, device := range devices { // each copies what the plan before it changes
			from := devices[(place+1)%len(devices)]
			plans = append(plans, &outlook.Plan{Names: []part.Bytes{"b"}, Count: 1, Steps: []outlook.Step{{Act: outlook.Copy, Device: device, From: from, Over: true}}})
		}
		scripts := Of(summaryOf(plans), time.Unix(0, 0))
		for place := 1; place < len(scripts); place++ {
			if scripts[place-1].Name >= scripts[place].Name {
				t.Errorf("%q: %s comes before %s", devices, scripts[place-1].Name, scripts[place].Name)
			}
		}
		if len(scripts) < 4 || scripts[len(scripts)-1].Name[0] == '1' {
			t.Errorf("%q: %d scripts, the last is %s", devices, len(scripts), scripts[len(scripts)-1].Name)
		}
	}
}
