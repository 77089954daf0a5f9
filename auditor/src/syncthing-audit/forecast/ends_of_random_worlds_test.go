package forecast

import (
	"crypto/sha256"
	"encoding/json"
	"flag"
	"fmt"
	"hash"
	"math/rand"
	"os"
	"regexp"
	"strings"
	"testing"
)

const (
	fileOfSums  = "testdata/sums.txt"
	worldsOfSum = 50 // how many random worlds have one sum
	fewSums     = 2
)

// What comes of few random worlds is as it was.
func TestFewRandomWorlds(t *testing.T) { checkSums(t, readSums(t)[:fewSums]) }

// What comes of random worlds, some by some, as it was while all worlds that were tried on real devices came to what is foretold: each world that comes of one
// order, with what devices record of themselves and of others, and the ends of all orders, or of some. Whoever has the model do something else tries worlds on
// devices (auditor/test/worlds.py), and then has this test write the sums: 'go test -run ManyRandomWorlds -args write'.
func TestManyRandomWorlds(t *testing.T) {
	sums := readSums(t)
	if len(sums) < 30 {
		t.Errorf("%d sums", len(sums))
	}
	if flag.Arg(0) != "write" {
		checkSums(t, sums)
		return
	}
	for place := range sums {
		sums[place] = sumOfWorlds(t, place)
	}
	if err := os.WriteFile(fileOfSums, []byte(strings.Join(sums, "\n")+"\n"), 0o644); err != nil {
		t.Fatal(err)
	}
}

func readSums(t *testing.T) []string {
	text, err := os.ReadFile(fileOfSums)
	if err != nil {
		t.Fatal(err)
	}
	return strings.Fields(string(text))
}

func checkSums(t *testing.T, sums []string) {
	for place, due := range sums {
		if found := sumOfWorlds(t, place); found != due {
			t.Fatalf("other ends are foretold of the random worlds from %d on: %s, not %s", place*worldsOfSum, found, due)
		}
	}
}

// sumOfWorlds gives the sum of what comes of some worlds.
func sumOfWorlds(t *testing.T, place int) string {
	sum := sha256.New()
	for seed := place * worldsOfSum; seed < (place+1)*worldsOfSum; seed++ {
		random := rand.New(rand.NewSource(int64(seed)))
		world := randomWorld(random)
		commands := randomCommands(world.Devices, random)
		running := random.Perm(len(world.Devices))[random.Intn(2):]
		addTo(t, sum, Settle(world.Copied(), running, int64(1000+seed), commands...))
		if seed%4 == 0 {
			addTo(t, sum, New(Budget{States: 60, Walks: 3, Total: 1000}).OfGroup(world.Devices, world.Names, commands...))
		}
	}
	return fmt.Sprintf("%x", sum.Sum(nil)[:8])
}

func addTo(t *testing.T, sum hash.Hash, value interface{}) {
	text, err := json.Marshal(value)
	if err != nil {
		t.Fatal(err)
	}
	sum.Write([]byte(wordsAsSummed.Replace(contents.ReplaceAllString(string(text), `{"Size":$1,"Hash":"$2"}`))))
}

// The sums were made of JSON in which a type was its number, and a file's bytes had these words.
var (
	wordsAsSummed = strings.NewReplacer(`"Type":""`, `"Type":0`, `"Type":"file"`, `"Type":1`, `"Type":"directory"`, `"Type":2`, `"Type":"symlink"`, `"Type":3`)
	contents      = regexp.MustCompile(`\{"size":([0-9]+)(?:,"content":"([^"]*)")?\}`)
)
