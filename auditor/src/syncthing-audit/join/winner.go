package join

import "syncthing-audit/part"

// Claim is what a device's record says of a name, or comes to say by a scan, as far as Syncthing goes by that when it chooses between several.
type Claim struct {
	Version     part.Version
	Deleted     bool
	Seconds     int64 // when it was modified; 0 for a symlink, of which Syncthing records no time
	Nanoseconds int
}

// ClaimOf gives what a record says.
func ClaimOf(record *part.Record) Claim {
	return Claim{record.Version, record.Deleted, record.ModifiedS, record.ModifiedNs}
}

// IsBelow says whether another claim is on top of this one.
func (c Claim) IsBelow(other Claim) bool {
	return c.Version.IsAtMost(other.Version) && !other.Version.IsAtMost(c.Version)
}

// Wins says whether Syncthing keeps this one of two claims: the one on top; else by its WinsConflict what isn't deleted, the later one, and at equal
// times the one whose version goes first. Of three claims each may win against the next one in a circle: Winner says what is to be done then.
func (c Claim) Wins(other Claim) bool {
	switch {
	case c.IsBelow(other) || other.IsBelow(c):
		return other.IsBelow(c)
	case c.Deleted != other.Deleted:
		return other.Deleted
	case c.Seconds != other.Seconds:
		return c.Seconds > other.Seconds
	case c.Nanoseconds != other.Nanoseconds:
		return c.Nanoseconds > other.Nanoseconds
	}
	return c.Version.GoesFirst(other.Version)
}

// Winner gives the place of the claim that Syncthing keeps once all devices know all claims: of those that no other one is on top of, the one that wins
// against all others of these; -1 where there is none. Where Syncthing compares nothing more, the first one wins. So claims are given in the order of
// their devices' ids.
func Winner(claims []Claim) int {
	winner := -1
	for place, claim := range claims {
		if !claim.isBelowAny(claims) && (winner < 0 || claim.Wins(claims[winner])) {
			winner = place
		}
	}
	return winner
}

func (c Claim) isBelowAny(claims []Claim) bool {
	for _, other := range claims {
		if c.IsBelow(other) {
			return true
		}
	}
	return false
}

// Winner gives the own record that wins a name, of the members of which this is so; nothing where there is none. A record that is a local change of a
// device that only receives never does.
func (r *Row) Winner(isOf func(member int) bool) *part.Record {
	records, claims := make([]*part.Record, 0, len(r.At)), make([]Claim, 0, len(r.At))
	for member, at := range r.At {
		if at != nil && at.Own != nil && !at.Own.Invalid && isOf(member) {
			records, claims = append(records, at.Own), append(claims, ClaimOf(at.Own))
		}
	}
	if place := Winner(claims); place >= 0 {
		return records[place]
	}
	return nil
}

// OfAll is of each member.
func OfAll(int) bool { return true }
