package audit

import (
	"fmt"
	"testing"
	"time"

	"syncthing-audit/join"
	"syncthing-audit/part"
)

// A part that leaves one name out for very many reasons takes no longer than for as many names: each is looked up, and not compared with
// all others, which took minutes here.
func TestManyReasonsForOneName(t *testing.T) {
	const many = 60000
	one := &part.Name{Name: "a"}
	for number := 0; number < many; number++ {
		one.Out = append(one.Out, part.LeftOut{Kind: part.Unreadable, Why: fmt.Sprintf("the reason with the number %d", number)})
	}
	one.Out = append(one.Out, one.Out...)
	began := time.Now()
	made := namesOf().reasonsOf(&join.Row{Name: "a", At: []*part.Name{one, nil}})
	if spent := time.Since(began); len(made) != many || spent > 30*time.Second {
		t.Errorf("%d reasons in %v", len(made), spent)
	}
}
