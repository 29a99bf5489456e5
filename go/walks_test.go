package bwtree

import (
	"bytes"
	"encoding/hex"
	"errors"
	"math"
	"math/rand"
	"os"
	"reflect"
	"sort"
	"strconv"
	"strings"
	"sync"
	"testing"
)

func TestChanges(t *testing.T) {
	tree := opened(t, 2, 100)
	seat, other := tree.Seat(), tree.Seat()
	a, n, x, y := []byte("a"), []byte("n"), []byte("x"), []byte("y")
	answer := func(wanted []byte) func([]byte, bool, error) {
		return func(got []byte, found bool, err error) { t.Helper(); is(t, wanted, got, found, err) }
	}
	deletes := func(wanted bool, value []byte) func(bool, []byte, error) {
		return func(deleted bool, found []byte, err error) {
			t.Helper()
			if deleted != wanted || !bytes.Equal(found, value) || (found == nil) != (value == nil) || err != nil {
				t.Fatal(deleted, found, err)
			}
		}
	}
	adds := func(old uint64, there bool) func(uint64, bool, error) {
		return func(got uint64, found bool, err error) {
			t.Helper()
			if got != old || found != there || err != nil {
				t.Fatal(got, found, err)
			}
		}
	}
	answer(nil)(seat.Replace(a, x))
	deletes(false, nil)(seat.DeleteIf(a, x))
	if inserted, found, err := seat.Insert(a, x); !inserted || found != nil || err != nil {
		t.Fatal(inserted, found, err)
	}
	answer(x)(other.Replace(a, y))
	deletes(false, y)(other.DeleteIf(a, x))
	if tree.Len() != 1 {
		t.Fatal(tree.Len())
	}
	deletes(true, nil)(seat.DeleteIf(a, y))
	answer(nil)(seat.Upsert(a, nil))
	answer([]byte{})(seat.Replace(a, x))
	answer(x)(seat.Delete(a))
	adds(0, false)(seat.Add(n, 5))
	adds(5, true)(other.Add(n, math.MaxUint64))
	answer(AppendUint64(nil, 4))(seat.Get(n))
	answer(AppendUint64(nil, 4))(seat.Upsert(n, a))
	if _, _, err := seat.Add(n, 1); !errors.Is(err, ErrDiffers) || tree.Len() != 1 {
		t.Fatal(err, tree.Len())
	}
	long := make([]byte, 65)
	_, _, adding := seat.Add(long, 1)
	_, _, deleting := seat.DeleteIf(a, long)
	_, _, replacing := seat.Replace(n, long)
	_, _, _, backing := seat.Back(long)
	_, _, floor := seat.Floor(long)
	_, _, lower := seat.Lower(long)
	_, _, higher := seat.Higher(long)
	ahead, behind := seat.WalkRange(Range{Below: long}, nil), seat.WalkBack(Range{From: long}, nil)
	for _, err := range []error{adding, deleting, replacing, backing, floor, lower, higher, ahead, behind} {
		if !errors.Is(err, ErrTooLong) {
			t.Fatal(err)
		}
	}
}

// drawn is a key of few different bytes, the least and the greatest among them.
func drawn(draw *rand.Rand) []byte {
	var key []byte
	if draw.Intn(8) == 0 {
		key = bytes.Repeat([]byte{255}, 60)
	}
	for count := draw.Intn(5); count > 0; count-- {
		key = append(key, "\x00\x01a\xfe\xff"[draw.Intn(5)])
	}
	return key
}

// shows fails where the walks over a range don't show these keys, ascending and falling.
func shows(t *testing.T, seat *Seat, keys Range, wanted []string) {
	t.Helper()
	var rising, falling []string
	err := seat.WalkRange(keys, func(key, value []byte) bool { rising = append(rising, string(key)); return true })
	if err != nil || len(rising) != len(wanted) || len(wanted) > 0 && !reflect.DeepEqual(rising, wanted) {
		t.Fatalf("%q: %q, not %q, %v", keys, rising, wanted, err)
	}
	err = seat.WalkBack(keys, func(key, value []byte) bool { falling = append(falling, string(key)); return true })
	for i := range wanted {
		if err != nil || len(falling) != len(wanted) || falling[len(wanted)-1-i] != wanted[i] {
			t.Fatalf("%q: %q, not %q backward, %v", keys, falling, wanted, err)
		}
	}
}

func near(t *testing.T, sorted []string, wanted int, pair Pair, found bool, err error) {
	t.Helper()
	there := wanted >= 0 && wanted < len(sorted)
	if err != nil || found != there || there && string(pair.Key) != sorted[wanted] {
		t.Fatalf("%q %v %v, not %d of %q", pair.Key, found, err, wanted, sorted)
	}
}

func TestWalks(t *testing.T) {
	draw := rand.New(rand.NewSource(1))
	tree := opened(t, 1, 1000)
	seat := tree.Seat()
	defer seat.Release()
	shows(t, seat, Range{}, nil)
	var sorted []string
	for i := 0; i < 500; i++ {
		key := drawn(draw)
		if inserted, _, err := seat.Insert(key, key); err != nil {
			t.Fatal(err)
		} else if inserted {
			sorted = append(sorted, string(key))
		}
	}
	sort.Strings(sorted)
	if tree.Len() != len(sorted) {
		t.Fatal(tree.Len(), len(sorted))
	}
	answer := func(wanted int) func(Pair, bool, error) {
		return func(pair Pair, found bool, err error) { t.Helper(); near(t, sorted, wanted, pair, found, err) }
	}
	answer(0)(seat.First())
	answer(len(sorted) - 1)(seat.Last())
	shows(t, seat, Range{}, sorted)
	for i := 0; i < 150; i++ {
		one, other := drawn(draw), drawn(draw)
		at := sort.SearchStrings(sorted, string(one))
		behind, to := at, sort.SearchStrings(sorted, string(other))
		if at < len(sorted) && sorted[at] == string(one) {
			behind++
		}
		answer(at)(seat.Ceiling(one))
		answer(behind)(seat.Higher(one))
		answer(at - 1)(seat.Lower(one))
		answer(behind - 1)(seat.Floor(one))
		shows(t, seat, Range{From: one}, sorted[at:])
		shows(t, seat, Range{Below: append([]byte{}, one...)}, sorted[:at])
		if to < at {
			to = at
		}
		shows(t, seat, Range{one, append([]byte{}, other...)}, sorted[at:to])
		var starting []string
		for _, key := range sorted {
			if strings.HasPrefix(key, string(one)) {
				starting = append(starting, key)
			}
		}
		shows(t, seat, Prefix(one), starting)
	}
}

func TestSumsAndCounts(t *testing.T) {
	tree := opened(t, 4, 2000)
	var all sync.WaitGroup
	for number := 0; number < 4; number++ {
		all.Add(1)
		go func(number int) {
			defer all.Done()
			seat := tree.Seat()
			defer seat.Release()
			again := func(call func() error) {
				err := call()
				for ; errors.Is(err, ErrFull); err = call() {
				}
				if err != nil {
					t.Error(err)
				}
			}
			for i := 0; i < 1000; i++ {
				key := []byte{byte(number), byte(i * 7 % 90)}
				again(func() error { _, _, err := seat.Add([]byte("sum"), uint64(i)); return err })
				again(func() error { _, _, err := seat.Insert([]byte{byte(number), byte(i % 90)}, key); return err })
				again(func() error { _, _, err := seat.DeleteIf(key, key); return err })
			}
		}(number)
	}
	all.Wait()
	seat, count := tree.Seat(), 0
	sum, _, _ := seat.Get([]byte("sum"))
	if err := seat.WalkBack(Range{}, func(key, value []byte) bool { count++; return true }); err != nil || count != tree.Len() {
		t.Fatal(err, count, tree.Len())
	}
	if !bytes.Equal(sum, AppendUint64(nil, 4*999*1000/2)) {
		t.Fatal(sum)
	}
	given, err := OpenFrom(Limits{Actors: 1, Pages: 64, Records: 256}, []Pair{{[]byte("a"), nil}, {[]byte("b"), nil}})
	if err != nil || given.Len() != 2 {
		t.Fatal(err)
	}
}

// part is the key of a part that keys.txt spells, which is read again from it.
func part(t *testing.T, word string) (key []byte) {
	kind, digits, _ := strings.Cut(word, ":")
	same := false
	switch kind {
	case "u64":
		number, _ := strconv.ParseUint(digits, 10, 64)
		key = AppendUint64(nil, number)
		read, rest, there := TakeUint64(key)
		same = read == number && len(rest) == 0 && there
	case "i64":
		number, _ := strconv.ParseInt(digits, 10, 64)
		key = AppendInt64(nil, number)
		read, rest, there := TakeInt64(key)
		same = read == number && len(rest) == 0 && there
	case "f64":
		bits, _ := strconv.ParseUint(digits, 16, 64)
		key = AppendFloat64(nil, math.Float64frombits(bits))
		read, rest, there := TakeFloat64(key)
		same = math.Float64bits(read) == bits && len(rest) == 0 && there
	case "text":
		text, _ := hex.DecodeString(digits)
		key = AppendText(nil, string(text))
		read, rest, there := TakeText(key)
		same = read == string(text) && len(rest) == 0 && there
	}
	if !same {
		t.Fatal(word)
	}
	return key
}

func TestStoredKeys(t *testing.T) {
	stored, err := os.ReadFile("../c/tests/keys.txt")
	if err != nil {
		t.Fatal(err)
	}
	count, last := 0, ""
	for _, line := range strings.Split(string(stored), "\n") {
		words := strings.Fields(line)
		if len(words) == 0 || words[0] == "#" {
			last = ""
			continue
		}
		key := ""
		for _, word := range words[1:] {
			key += string(part(t, word))
		}
		if hex.EncodeToString([]byte(key)) != words[0] || last >= key && last != "" {
			t.Fatal(line)
		}
		last = key
		count++
	}
	if count < 100 {
		t.Fatal(count)
	}
}

func TestSortedKeys(t *testing.T) {
	type parts struct {
		text  string
		whole int64
		real  float64
		key   []byte
	}
	draw := rand.New(rand.NewSource(2))
	var all []parts
	for i := 0; i < 2000; i++ {
		it := parts{text: string(drawn(draw)), whole: int64(draw.Uint64()) >> draw.Intn(64), real: draw.NormFloat64()}
		it.key = AppendFloat64(AppendInt64(AppendText(nil, it.text), it.whole), it.real)
		all = append(all, it)
	}
	sort.Slice(all, func(i, j int) bool {
		one, other := all[i], all[j]
		if one.text != other.text {
			return one.text < other.text
		}
		return one.whole < other.whole || one.whole == other.whole && one.real < other.real
	})
	if !sort.SliceIsSorted(all, func(i, j int) bool { return bytes.Compare(all[i].key, all[j].key) < 0 }) {
		t.Fatal("the keys don't sort as their parts")
	}
	for _, wrong := range []string{"a", "a\x00", "a\x00\x01"} {
		if _, rest, there := TakeText([]byte(wrong)); there || string(rest) != wrong {
			t.Fatal(wrong)
		}
	}
	if _, _, there := TakeInt64([]byte("1234567")); there {
		t.Fatal("seven bytes are no number")
	}
}

func TestNeighbours(t *testing.T) {
	if _, there := KeyBefore(nil); there || KeyBehind(nil) != nil || KeyBehind([]byte{255, 255}) != nil || KeyAfter(greatest) != nil {
		t.Fatal("a key that there isn't")
	}
	before, there := KeyBefore([]byte("b"))
	if !there || len(before) != 64 || before[0] != 'a' || before[63] != 255 || string(KeyAfter(before)) != "b" {
		t.Fatal(before)
	}
	if before, there = KeyBefore([]byte("a\x00")); !there || string(before) != "a" || string(KeyBehind([]byte("a\xfe\xff"))) != "a\xff" {
		t.Fatal(before)
	}
}
