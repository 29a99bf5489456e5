package bwtree

import (
	"errors"
	"fmt"
	"log"
	"testing"
	"time"
)

// A write waits as long as its seat's patience lasts: in vain where the tree is full for good.
func TestPatience(t *testing.T) {
	tree, err := Open(Limits{Actors: 1, Pages: 64, Records: 704})
	if err != nil {
		t.Fatal(err)
	}
	seat := tree.Seat()
	if hint, err := seat.FullHint(); hint != FullPassed || err != nil {
		t.Fatal(hint, err)
	}
	var key []byte
	for i := 0; err == nil; i++ {
		key = []byte(fmt.Sprint(uint32(i * 2654435761)))
		_, _, err = seat.Insert(key, nil)
	}
	seat.SetPatience(30 * time.Millisecond)
	begin := time.Now()
	if _, _, err := seat.Insert(key, nil); !errors.Is(err, ErrFull) || time.Since(begin) < 30*time.Millisecond {
		t.Fatal(err, time.Since(begin))
	}
	if hint, err := seat.FullHint(); hint != FullForGood || err != nil {
		t.Fatal(hint, err)
	}
	seat.Release()
	if _, err := seat.FullHint(); !errors.Is(err, ErrClosed) {
		t.Fatal(err)
	}
}

// In a tree for short pairs that is filled with long ones no record of 512 words is free any more, though many narrower ones are.
func TestFullHintOfThreeWidths(t *testing.T) {
	limits, err := LimitsForPairs(1, 2000, 1, 1)
	if err != nil {
		t.Fatal(err)
	}
	tree, err := Open(limits)
	if err != nil {
		t.Fatal(err)
	}
	seat := tree.Seat()
	if hint, err := seat.FullHint(); hint != FullPassed || err != nil {
		t.Fatal(hint, err)
	}
	for i := 0; err == nil && i < 2000; i++ {
		key := []byte(fmt.Sprintf("%064d", uint32(i*2654435761)))
		_, _, err = seat.Insert(key, key)
	}
	if !errors.Is(err, ErrFull) {
		t.Fatal(err)
	}
	if room, err := seat.Room(); room.FreePages == 0 || room.FreeRecords == 0 || err != nil {
		t.Fatal(room, err)
	}
	if hint, err := seat.FullHint(); hint != FullUnknown || err != nil {
		t.Fatal(hint, err)
	}
	seat.Release()
	if err := tree.Close(); err != nil {
		t.Fatal(err)
	}
}

// A wait makes a write again while it is full, and ends with the first other answer.
func TestWaits(t *testing.T) {
	seat := &Seat{patience: 20 * time.Second}
	wait, err, tries := wait{}, error(nil), 0
	for wait.again(seat, err) {
		if tries++; tries < 5 {
			err = ErrFull
		} else {
			err = ErrTooLong
		}
	}
	if tries != 5 || err != ErrTooLong {
		t.Fatal(tries, err)
	}
}

// Calls on a seat that was given back answer ErrClosed, though its tree is open.
func TestReleased(t *testing.T) {
	tree := opened(t, 1, 100)
	seat := tree.Seat()
	seat.Release()
	_, _, gets := seat.Get(nil)
	_, _, inserts := seat.Insert(nil, nil)
	_, _, _, pages := seat.Page(nil)
	_, room := seat.Room()
	for _, err := range []error{gets, inserts, pages, room, seat.Tidy(nil), seat.Walk(nil, nil)} {
		if !errors.Is(err, ErrClosed) {
			t.Fatal(err)
		}
	}
	if next := tree.Seat(); next.number != 0 {
		t.Fatal(next.number)
	}
}

func Example() {
	limits, err := LimitsForKeys(2, 100)
	if err != nil {
		log.Fatal(err)
	}
	tree, err := Open(limits)
	if err != nil {
		log.Fatal(err)
	}
	seat := tree.Seat()
	defer seat.Release()
	inserted, _, err := seat.Insert([]byte("Bern"), []byte("Switzerland"))
	fmt.Println(inserted, err)
	value, found, err := seat.Get([]byte("Bern"))
	fmt.Printf("%s %v %v\n", value, found, err)
	// Output:
	// true <nil>
	// Switzerland true <nil>
}

func ExampleSeat_All() {
	tree, err := OpenFrom(Limits{Actors: 1, Pages: 64, Records: 704}, []Pair{{[]byte("a"), []byte("1")}, {[]byte("ab"), []byte("2")}, {[]byte("b"), nil}})
	if err != nil {
		log.Fatal(err)
	}
	seat := tree.Seat()
	defer seat.Release()
	// from Go 1.23 on: for key, value := range seat.All(Prefix([]byte("a")), &err) { .. }
	seat.All(Prefix([]byte("a")), &err)(func(key, value []byte) bool {
		fmt.Printf("%s %s\n", key, value)
		return true
	})
	fmt.Println(err)
	// Output:
	// a 1
	// ab 2
	// <nil>
}

func ExampleSeat_CompareAndSwap() {
	tree, err := OpenFrom(Limits{Actors: 1, Pages: 64, Records: 704}, []Pair{{[]byte("lock"), []byte("free")}})
	if err != nil {
		log.Fatal(err)
	}
	seat := tree.Seat()
	defer seat.Release()
	for i := 0; i < 2; i++ {
		swapped, found, err := seat.CompareAndSwap([]byte("lock"), []byte("free"), []byte("taken"))
		fmt.Printf("%v %q %v\n", swapped, found, err)
	}
	// Output:
	// true "" <nil>
	// false "taken" <nil>
}
