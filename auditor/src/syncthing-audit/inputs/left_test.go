package inputs

import (
	"reflect"
	"testing"

	"syncthing-audit/finding"
	"syncthing-audit/part"
)

// A place that is left out is told once: of each folder that is known to be shared with its device, whatever that is called, or else by itself.
func TestPlacesThatAreLeftOutAreToldOnce(t *testing.T) {
	const id, why = "NAS", "open cert.pem: permission denied"
	ofFolder := finding.Refusal{Kind: part.Absent, Folder: "docs", Device: "the nas", ID: id, Why: why}
	for told, row := range map[string]struct {
		left []Left
		due  []finding.Refusal
	}{
		"nothing is left out":    {nil, []finding.Refusal{ofFolder}},
		"its folder tells of it": {[]Left{{Called: "/srv/nas", Device: id, Why: why}}, []finding.Refusal{ofFolder}},
		"its id isn't known":     {[]Left{{Called: "nas", Why: "nas: " + why}}, []finding.Refusal{ofFolder, {Kind: part.Absent, Device: "nas", Why: why}}},
		"no folder is shared with it": {[]Left{{Called: "pi", Device: "PI", Why: why}, {Called: "pi", Device: "PI", Why: why}},
			[]finding.Refusal{ofFolder, {Kind: part.Absent, Device: "pi", ID: "PI", Why: why}}},
	} {
		answer := &finding.Answer{LeftOut: []finding.Refusal{ofFolder}}
		if AddLeft(answer, row.left); !reflect.DeepEqual(answer.LeftOut, row.due) {
			t.Errorf("%s: %+v", told, answer.LeftOut)
		}
	}
}

// Why a place is left out is known by its device's id, or by none.
func TestWhyPlacesAreLeftOut(t *testing.T) {
	reasons := WhyLeft([]Left{{"nas", "NAS", "no route"}, {"pi", "", "no key"}})
	if !reflect.DeepEqual(reasons, map[string]string{"NAS": "no route", "": "no key"}) {
		t.Errorf("%q", reasons)
	}
}
