package print

import (
	"fmt"
	"strings"
	"testing"
	"time"

	"syncthing-audit/outlook"
	"syncthing-audit/part"
)

// readBy gives what a person reads.
func readBy(tell func(p *Person)) string {
	var to strings.Builder
	tell(&Person{To: &to, Called: strings.ToLower, Zone: time.UTC})
	return to.String()
}

// moreOf says in a plain way how many names there are behind those that are told.
func moreOf(count int) string {
	switch {
	case count <= 0:
		return ""
	case count == 1:
		return "and 1 more name"
	}
	return fmt.Sprintf("and %d more names", count)
}

func namesTo(count int) []part.Bytes {
	var names []part.Bytes
	for number := 1; number <= count; number++ {
		names = append(names, part.Bytes(fmt.Sprint("n", number)))
	}
	return names
}

// Of names that lose something the first ones are told one by one, and the others counted.
func TestHowManyNamesAreTold(t *testing.T) {
	for listed := 0; listed <= 7; listed++ {
		for unlisted := 0; unlisted <= 2; unlisted++ {
			of := &outlook.Outlook{Names: int64(listed + unlisted), Lost: int64(listed + unlisted)}
			for _, name := range namesTo(listed) {
				of.Listed = append(of.Listed, outlook.Name{Name: name, Fate: outlook.Lost, Loses: things(file(1, "aa", 0))}, outlook.Name{Name: name, Fate: outlook.Depends})
			}
			told := readBy(func(p *Person) { p.lost(of) })
			shown := listed
			if shown > outlook.MostNamed {
				shown = outlook.MostNamed
			}
			more := moreOf(listed + unlisted - shown)
			if strings.Count(told, "    n") != shown || strings.Contains(told, "more name") != (more != "") || more != "" && !strings.HasSuffix(told, "    "+more+" (--json has them)\n") {
				t.Errorf("%d and %d: %s", listed, unlisted, told)
			}
		}
	}
}

// A plan tells its first names, how many more it has, where they are, and how many names below it has. The time of what is copied is told of one name alone.
func TestTheNamesOfAPlan(t *testing.T) {
	goal := file(5, "aa", 0)
	for count := 1; count <= 7; count++ {
		for below := 0; below <= 2; below++ {
			plan := &outlook.Plan{Names: namesTo(count), Count: int64(count), Below: int64(below), Goal: &goal}
			due := strings.TrimSpace("n1 n2 n3 n4 n5"[:min(3*count, 15)-1])
			if count > 5 {
				due += " " + moreOf(count-5) + " (--json has them)"
			}
			due += []string{"", ", with 1 name below ", ", with 2 names below "}[below]
			if below > 0 {
				due += map[bool]string{true: "it", false: "them"}[count == 1]
			}
			told := readBy(func(p *Person) { p.plan(plan, 0) })
			if is := namesOf(plan); is != due || !strings.HasPrefix(told, "  for "+due+":\n") || strings.Contains(told, "(modified ") != (count == 1) {
				t.Errorf("%q, not %q: %s", is, due, told)
			}
		}
	}
}

func min(a, b int) int {
	if a < b {
		return a
	}
	return b
}

// Behind the steps of all plans come what no step does, the start, and another audit where something may be chosen: each where there is such, with the next number.
func TestWhatComesBehindTheSteps(t *testing.T) {
	for without := int64(0); without <= 2; without++ {
		for choices := 0; choices <= 2; choices++ {
			for unknown := int64(0); unknown <= 2; unknown++ {
				decided := 2 - unknown
				of := &outlook.Outlook{Names: 5, NotKnown: unknown, ToDecide: decided, WithoutSteps: without, FirstWithout: namesTo(int(without)), Plans: []*outlook.Plan{{Names: namesTo(1), Count: 1, Steps: []outlook.Step{{Act: outlook.Save, Device: "A"}}}},
					Choices: []*outlook.Choice{{Act: outlook.Revert, Device: "A"}, {Act: outlook.Both, Device: "A"}}[:choices]}
				number, due := 1, ""
				next := func(format string, words ...any) {
					number++
					due += fmt.Sprintf("  %d. ", number) + fmt.Sprintf(format, words...) + "\n"
				}
				if without > 0 {
					next("do what the entries below say to do before Syncthing starts or scans, for %s that no step here puts right: %s", []string{"", "1 name", "2 names"}[without], []string{"", "n1", "n1 n2"}[without])
				}
				next("start Syncthing on all its devices%s%s", []string{"", "; that has all devices change or delete 1 name below: see first whether that is wanted",
					"; that has all devices change or delete 2 names below: see first whether that is wanted"}[decided], []string{"", "; of 1 name it isn't known what that does: see to it first", "; of 2 names it isn't known what that does: see to them first"}[unknown])
				if choices > 0 {
					next("audit again, once they are idle. What may be chosen for the whole folder (%s) is told then: these steps change what it does",
						[]string{"", "'Revert Local Changes' on a", "'Revert Local Changes' on a, 'Send & Receive' on a"}[choices])
				}
				if told := readBy(func(p *Person) { p.Outlook("docs", false, of) }); !strings.HasSuffix(told, "the start may take it away\n"+due) {
					t.Errorf("%s\ndoesn't end with\n%s", told, due)
				}
			}
		}
	}
}

// A choice tells how many names come to another end, and of how many all devices then have one thing: where that is all of them, once.
func TestWhatAChoiceComesTo(t *testing.T) {
	for names := int64(0); names <= 3; names++ {
		for alike := int64(0); alike <= names; alike++ {
			due := "changes nothing that is known"
			if names > 0 {
				due = []string{"", "1 name comes", "2 names come", "3 names come"}[names] + " to another end"
			}
			if names > 0 && alike == names {
				due += ", and all devices then have one thing of " + []string{"", "it", "each", "each"}[names]
			} else if alike > 0 {
				due += fmt.Sprintf("; of %d all devices then have one thing", alike)
			}
			if told := ofChoice(&outlook.Choice{Names: names, Alike: alike, IsAll: true}); told != due {
				t.Errorf("%d of %d: %s, not %s", alike, names, told, due)
			}
		}
	}
}

// Of what there is none nothing is said.
func TestNothingIsSaidOfNone(t *testing.T) {
	told := readBy(func(p *Person) { p.Outlook("docs", false, &outlook.Outlook{Names: 1, NotKnown: 1}) })
	if strings.Count(told, "\n") != 3 || !strings.HasSuffix(told, "\n  of 1 name it isn't known what becomes of it:\n") {
		t.Error(told)
	}
}
