package join

import "testing"

func TestCheckWanted(t *testing.T) {
	labels := map[string]string{"docs": "Documents", "music": "music", "abcd-1234": "my photos"}
	cases := []struct {
		labels  map[string]string
		wanted  []string
		refused string
	}{
		{labels, nil, ""},
		{labels, []string{"music", "docs"}, ""},
		{labels, []string{"docs", "dosc"}, "no folder here has the id dosc: there are abcd-1234 (my photos), docs (Documents), music"},
		{labels, []string{"my photos"}, "no folder here has the id 'my photos', which is a label: the id is abcd-1234"},
		{map[string]string{"docs": ""}, []string{"dosc"}, "no folder here has the id dosc: the only one is docs"},
		{nil, []string{"docs"}, "no folder here has the id docs: there is no folder"},
	}
	for _, one := range cases {
		told := ""
		if err := CheckWanted(one.labels, one.wanted); err != nil {
			told = err.Error()
		}
		if told != one.refused {
			t.Errorf("%s: %s", one.wanted, told)
		}
	}
}
