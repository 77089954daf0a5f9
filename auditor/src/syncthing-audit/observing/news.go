package observing

import (
	"errors"
	"fmt"
	"regexp"
	"time"

	"syncthing-audit/amount"
	"syncthing-audit/wire"
)

// news says what is new of devices that fail, look by look: a device that fails again at the same step and in the same way is no news.
type news struct {
	now     func() time.Time
	failing map[string]*failing // by what is told of
}

// failing is a device that failed at the last looks.
type failing struct {
	what  string // at which step, and how
	looks int
	since time.Time
}

// newNews gives what is new from now on.
func newNews() *news { return &news{now: time.Now, failing: map[string]*failing{}} }

// fails takes that something failed at a look, and says whether it is news.
func (n *news) fails(of, what string, why error) bool {
	what += ": " + wayOf(why)
	had := n.failing[of]
	if had == nil {
		had = &failing{since: n.now()}
		n.failing[of] = had
	}
	had.looks++
	isNew := had.what != what
	had.what = what
	return isNew
}

// digits are what may differ from look to look where nothing else does: ports, say.
var digits = regexp.MustCompile("[0-9]+")

// wayOf says how something failed: that another device answers is news where nobody did before.
func wayOf(why error) string {
	var refusal wire.Refusal
	if errors.As(why, &refusal) {
		return refusal.Error()
	}
	return digits.ReplaceAllString(why.Error(), "0")
}

// works takes that something didn't fail at a look, and says how it failed before; nothing where it didn't.
func (n *news) works(of string) string {
	had := n.failing[of]
	delete(n.failing, of)
	return had.words()
}

// words says how often something has failed; nothing where it never did.
func (f *failing) words() string {
	if f == nil {
		return ""
	}
	return fmt.Sprintf("%s since %s", amount.Of(f.looks, "look"), f.since.UTC().Format("2006-01-02 15:04:05 UTC"))
}

// often says of something that failed at the last looks how often that was; nothing where it was only the last one.
func (n *news) often(of string) string {
	had := n.failing[of]
	if had == nil || had.looks < 2 {
		return ""
	}
	return "; it failed so at " + had.words()
}
