package bwtree

import (
	"bytes"
	"errors"
	"fmt"
	"reflect"
	"runtime"
	"sync"
	"testing"
	"time"
)

func opened(t *testing.T, seats, keys uint64) *Tree {
	t.Helper()
	limits, err := LimitsForKeys(seats, keys)
	if err != nil {
		t.Fatal(err)
	}
	tree, err := Open(limits)
	if err != nil {
		t.Fatal(err)
	}
	return tree
}

// is fails where an answer with a value isn't the wanted one; nil wants none.
func is(t *testing.T, wanted []byte, got []byte, found bool, err error) {
	t.Helper()
	if err != nil || found != (wanted != nil) || !bytes.Equal(got, wanted) {
		t.Fatalf("%q %v %v, not %q", got, found, err, wanted)
	}
}

func TestAnswers(t *testing.T) {
	tree := opened(t, 2, 100)
	seat, other := tree.Seat(), tree.Seat()
	a, x, y := []byte("a"), []byte("x"), []byte("y")
	answer := func(wanted []byte) func([]byte, bool, error) {
		return func(got []byte, found bool, err error) { t.Helper(); is(t, wanted, got, found, err) }
	}
	answer(nil)(seat.Get(a))
	if inserted, found, err := seat.Insert(a, x); !inserted || found != nil || err != nil {
		t.Fatal(inserted, found, err)
	}
	if inserted, found, err := other.Insert(a, y); inserted || !bytes.Equal(found, x) || err != nil {
		t.Fatal(inserted, found, err)
	}
	answer(x)(seat.Upsert(a, y))
	answer(nil)(seat.Upsert(nil, nil))
	answer([]byte{})(other.Get(nil))
	if swapped, found, err := seat.CompareAndSwap(a, x, y); swapped || !bytes.Equal(found, y) || err != nil {
		t.Fatal(swapped, found, err)
	}
	if swapped, found, err := seat.CompareAndSwap(a, y, x); !swapped || found != nil || err != nil {
		t.Fatal(swapped, found, err)
	}
	if swapped, found, err := seat.CompareAndSwap([]byte("b"), y, x); swapped || found != nil || err != nil {
		t.Fatal(swapped, found, err)
	}
	if err := seat.Tidy(a); err != nil {
		t.Fatal(err)
	}
	if room, err := seat.Room(); err != nil || room.FreeRecords == 0 {
		t.Fatal(room, err)
	}
	answer(x)(other.Delete(a))
	answer(nil)(other.Delete(a))
	if _, _, err := seat.Get(make([]byte, 65)); !errors.Is(err, ErrTooLong) {
		t.Fatal(err)
	}
	if _, _, err := seat.Upsert(a, make([]byte, 65)); !errors.Is(err, ErrTooLong) {
		t.Fatal(err)
	}
	if err := seat.Walk(make([]byte, 65), nil); !errors.Is(err, ErrTooLong) {
		t.Fatal(err)
	}
}

func TestLimits(t *testing.T) {
	if _, err := LimitsForKeys(17, 1); !errors.Is(err, ErrBadLimits) {
		t.Fatal(err)
	}
	if _, err := LimitsForManyKeys(64, 1); !errors.Is(err, ErrBadLimits) {
		t.Fatal(err)
	}
	if _, err := Open(Limits{Actors: 1, Pages: 63, Records: 64}); !errors.Is(err, ErrBadLimits) {
		t.Fatal(err)
	}
	if _, err := LimitsForPairs(1, 1000, 65, 8); !errors.Is(err, ErrBadLimits) {
		t.Fatal(err)
	}
	limits, err := LimitsForPairs(1, 1000, 16, 8)
	if err != nil || !limits.Large || limits.Widths.PageWords != 88 {
		t.Fatal(limits, err)
	}
	tree, err := Open(limits)
	if err != nil || tree.Close() != nil {
		t.Fatal(err)
	}
	small := limits
	small.Large = false
	if _, err := Open(small); !errors.Is(err, ErrBadLimits) {
		t.Fatal(err)
	}
}

func TestMostSeats(t *testing.T) {
	limits, err := LimitsForManyKeys(63, 100)
	if err != nil {
		t.Fatal(err)
	}
	tree, err := Open(limits)
	if err != nil {
		t.Fatal(err)
	}
	var seats []*Seat
	for seat := tree.TrySeat(); seat != nil; seat = tree.TrySeat() {
		seats = append(seats, seat)
	}
	for i, seat := range seats {
		if inserted, _, err := seat.Insert([]byte{byte(i)}, nil); !inserted || err != nil {
			t.Fatal(i, err)
		}
		seat.Release()
	}
	if len(seats) != 63 || tree.Len() != 63 || tree.Close() != nil {
		t.Fatal(len(seats))
	}
}

func TestLeases(t *testing.T) {
	tree := opened(t, 1, 100)
	seat := tree.Seat()
	if tree.TrySeat() != nil || !errors.Is(tree.Close(), ErrBusy) {
		t.Fatal("a seat is lent")
	}
	seat.Release()
	seat.Release()
	if err := tree.Close(); err != nil {
		t.Fatal(err)
	}
	if _, _, err := tree.Seat().Get(nil); !errors.Is(err, ErrClosed) {
		t.Fatal(err)
	}
}

func TestDroppedSeats(t *testing.T) {
	tree := opened(t, 1, 100)
	tree.Seat()
	seat := tree.TrySeat()
	for i := 0; i < 1000 && seat == nil; i++ {
		runtime.GC()
		time.Sleep(time.Millisecond)
		seat = tree.TrySeat()
	}
	if seat == nil {
		t.Fatal("the seat doesn't come back")
	}
	seat.Release()
	if err := tree.Close(); err != nil {
		t.Fatal(err)
	}
}

func TestFull(t *testing.T) {
	tree, err := Open(Limits{Actors: 1, Pages: 64, Records: 64})
	if err != nil {
		t.Fatal(err)
	}
	seat := tree.Seat()
	for i := 0; i < 100000 && err == nil; i++ {
		_, _, err = seat.Insert([]byte(fmt.Sprint(i)), nil)
	}
	if !errors.Is(err, ErrFull) {
		t.Fatal(err)
	}
}

func TestGoroutines(t *testing.T) {
	tree := opened(t, 4, 6*300)
	var all sync.WaitGroup
	for g := 0; g < 6; g++ {
		all.Add(1)
		go func(g int) {
			defer all.Done()
			seat := tree.Seat()
			defer seat.Release()
			for i := 0; i < 900; i++ {
				key, value := []byte(fmt.Sprintf("%d/%04d", g, i%300)), []byte(fmt.Sprint(i))
				old, found, err := seat.Upsert(key, value)
				// a write is told ErrFull while another thread stands still inside an operation: it is made again until that thread goes on
				for errors.Is(err, ErrFull) {
					runtime.Gosched()
					old, found, err = seat.Upsert(key, value)
				}
				if err != nil || found != (i >= 300) || (found && string(old) != fmt.Sprint(i-300)) {
					t.Errorf("%d %d: %s %v %v", g, i, old, found, err)
					return
				}
			}
		}(g)
	}
	all.Wait()
	seat, count, last := tree.Seat(), 0, ""
	err := seat.Walk(nil, func(key, _ []byte) bool {
		if string(key) <= last {
			t.Errorf("%s after %s", key, last)
		}
		last = string(key)
		count++
		return true
	})
	if err != nil || count != 1800 {
		t.Fatal(count, err)
	}
}

func TestPairs(t *testing.T) {
	limits := Limits{Actors: 2, Pages: 64, Records: 256}
	var pairs []Pair
	for i := byte(0); i < 60; i++ {
		pairs = append(pairs, Pair{[]byte{i}, []byte{i, i}})
	}
	tree, err := OpenFrom(limits, pairs)
	if err != nil {
		t.Fatal(err)
	}
	count := 0
	seat := tree.Seat()
	err = seat.Walk(nil, func(key, value []byte) bool {
		if !bytes.Equal(key, pairs[count].Key) || !bytes.Equal(value, pairs[count].Value) {
			t.Errorf("%q %q", key, value)
		}
		count++
		return true
	})
	if err != nil || count != len(pairs) {
		t.Fatal(count, err)
	}
	seat.Release()
	pairs[0], pairs[1] = pairs[1], pairs[0]
	if _, err := OpenFrom(limits, pairs); !errors.Is(err, ErrBadOrder) {
		t.Fatal(err)
	}
	if _, err := OpenFrom(limits, []Pair{{nil, make([]byte, 65)}}); !errors.Is(err, ErrTooLong) {
		t.Fatal(err)
	}
}

func TestCloseWithPairs(t *testing.T) {
	tree := opened(t, 2, 500)
	seat := tree.Seat()
	for i := 399; i >= 0; i-- {
		if _, _, err := seat.Insert([]byte(fmt.Sprintf("%03d", i)), []byte{byte(i)}); err != nil {
			t.Fatal(err)
		}
	}
	if _, found, err := seat.Delete([]byte("007")); !found || err != nil {
		t.Fatal(found, err)
	}
	if _, err := tree.CloseWithPairs(); !errors.Is(err, ErrBusy) {
		t.Fatal(err)
	}
	seat.Release()
	pairs, err := tree.CloseWithPairs()
	if err != nil || len(pairs) != 399 {
		t.Fatal(len(pairs), err)
	}
	for n, pair := range pairs {
		i := n
		if n >= 7 {
			i++
		}
		if string(pair.Key) != fmt.Sprintf("%03d", i) || !bytes.Equal(pair.Value, []byte{byte(i)}) {
			t.Fatal(n, pair)
		}
	}
	if _, err := tree.CloseWithPairs(); !errors.Is(err, ErrClosed) {
		t.Fatal(err)
	}
	limits, err := LimitsForKeys(1, 500)
	if err != nil {
		t.Fatal(err)
	}
	later, err := OpenFrom(limits, pairs)
	if err != nil {
		t.Fatal(err)
	}
	if again, err := later.CloseWithPairs(); err != nil || len(again) != 399 {
		t.Fatal(len(again), err)
	}
	if none, err := opened(t, 1, 1).CloseWithPairs(); err != nil || len(none) != 0 {
		t.Fatal(len(none), err)
	}
}

// A seat that was copied, which go vet reports where it sees it, is given back once: the second Release does not wait for room in the tree.
func TestCopiedSeat(t *testing.T) {
	tree := opened(t, 1, 10)
	seat, copied := tree.Seat(), new(Seat)
	reflect.ValueOf(copied).Elem().Set(reflect.ValueOf(seat).Elem())
	done := make(chan struct{})
	go func() {
		seat.Release()
		copied.Release()
		close(done)
	}()
	select {
	case <-done:
	case <-time.After(10 * time.Second):
		t.Fatal("the second Release waits for ever")
	}
	if err := tree.Close(); err != nil {
		t.Fatal(err)
	}
}
