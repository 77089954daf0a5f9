package outlook

import (
	"syncthing-audit/forecast"
	"syncthing-audit/lists"
)

// Differs is why a device keeps a name otherwise than most others, where there is no other reason.
const Differs forecast.Why = "differs"

// mayTakeFromTwins says whether names that aren't looked at may matter to these: some device takes bytes which another one hasn't as it says.
// It takes them from its own disk where another name has them.
func mayTakeFromTwins(group *forecast.World, answer *forecast.Answer) bool {
	hasNoSource := func(stuck forecast.Stuck) bool { return stuck.Why == forecast.NoSource }
	if lists.Has(answer.Ends, func(end forecast.End) bool { return lists.Has(end.Stuck, hasNoSource) }) {
		return true
	}
	isRotten, isAlike := false, true
	for place := range group.Names {
		name := &group.Names[place]
		isRotten, isAlike = isRotten || hasRot(name), isAlike && hasOneRecord(name)
	}
	return isRotten && !isAlike
}

// hasRot says whether a disk has other bytes of a name than recorded under the recorded time, which no scan sees.
func hasRot(name *forecast.Name) bool {
	for member, own := range name.Own {
		if what := name.Disk[member]; what != nil && isRot(own, what) {
			return true
		}
	}
	return false
}

// hasOneRecord says whether all devices have one record of a name, and know that of each other: none takes anything then.
func hasOneRecord(name *forecast.Name) bool {
	first := name.Own[0]
	isSame := func(record *forecast.Record) bool {
		return record != nil && first != nil && record.Flag == forecast.Valid && record.IsAtMost(first) && first.IsAtMost(record)
	}
	for i, own := range name.Own {
		if !isSame(own) {
			return false
		}
		for j, view := range name.Views[i] {
			if i != j && !isSame(view) {
				return false
			}
		}
	}
	return true
}
