package bwtree

import (
	"context"
	"errors"
	"fmt"
	"log"
	"os"
	"strings"
	"syscall"
	"testing"
)

// A seat is released at the end of With, also where the function panics; the function's error is returned.
func TestWith(t *testing.T) {
	tree := opened(t, 1, 100)
	wanted := errors.New("of the function")
	if err := tree.With(func(seat *Seat) error { return wanted }); err != wanted {
		t.Fatal(err)
	}
	func() {
		defer func() {
			if recover() == nil {
				t.Fatal("no panic")
			}
		}()
		_ = tree.With(func(seat *Seat) error { panic("in the function") })
	}()
	err := tree.With(func(seat *Seat) error {
		if _, err := tree.SeatContext(expired()); !errors.Is(err, context.Canceled) {
			t.Fatal(err)
		}
		_, _, err := seat.Upsert([]byte("a"), []byte("x"))
		return err
	})
	if err != nil || tree.Len() != 1 {
		t.Fatal(err)
	}
	seat, err := tree.SeatContext(context.Background())
	if err != nil {
		t.Fatal(err)
	}
	seat.Release()
	if err := tree.Close(); err != nil {
		t.Fatal(err)
	}
	if err := tree.With(func(seat *Seat) error { return seat.Tidy(nil) }); !errors.Is(err, ErrClosed) {
		t.Fatal(err)
	}
}

// expired is a context that is done.
func expired() context.Context {
	it, cancel := context.WithCancel(context.Background())
	cancel()
	return it
}

func TestAppendGet(t *testing.T) {
	seat := opened(t, 1, 100).Seat()
	if _, _, err := seat.Upsert([]byte("a"), []byte("xyz")); err != nil {
		t.Fatal(err)
	}
	if with, found, err := seat.AppendGet([]byte("<"), []byte("a")); string(with) != "<xyz" || !found || err != nil {
		t.Fatalf("%q %v %v", with, found, err)
	}
	if with, found, err := seat.AppendGet([]byte("<"), []byte("b")); string(with) != "<" || found || err != nil {
		t.Fatalf("%q %v %v", with, found, err)
	}
	if with, found, err := seat.AppendGet([]byte("<"), make([]byte, 65)); string(with) != "<" || found || !errors.Is(err, ErrTooLong) {
		t.Fatalf("%q %v %v", with, found, err)
	}
}

// A call allocates the bytes that it returns, and nothing else.
func TestAllocations(t *testing.T) {
	seat := opened(t, 1, 100).Seat()
	key, room, number := []byte("Bern"), make([]byte, 0, MaxLength), []byte("number")
	for _, call := range []struct {
		name string
		most float64
		run  func()
	}{
		{"Upsert", 1, func() { _, _, _ = seat.Upsert(key, key) }},
		{"Get", 1, func() { _, _, _ = seat.Get(key) }},
		{"AppendGet", 0, func() { _, _, _ = seat.AppendGet(room, key) }},
		{"Contains", 0, func() { _, _ = seat.Contains(key) }},
		{"Insert", 1, func() { _, _, _ = seat.Insert(key, nil) }},
		{"CompareAndSwap", 0, func() { _, _, _ = seat.CompareAndSwap(key, key, key) }},
		{"Add", 0, func() { _, _, _ = seat.Add(number, 1) }},
		{"Tidy", 0, func() { _ = seat.Tidy(key) }},
		{"DeleteIf", 0, func() { _, _, _ = seat.DeleteIf([]byte("none"), key) }},
		{"Delete", 0, func() { _, _, _ = seat.Delete([]byte("none")) }},
	} {
		// (an operation that is resumed is passed a page, which Go allocates)
		if made := testing.AllocsPerRun(100, call.run); made > call.most && os.Getenv("BWTREE_SPENT") == "" {
			t.Errorf("%s: %v allocations", call.name, made)
		}
	}
}

// A tree is not opened where the process may not have the memory: here 256 MB more than it has.
func TestNoMemory(t *testing.T) {
	const limitOfAddresses = 9
	statm, err := os.ReadFile("/proc/self/statm")
	if err != nil {
		t.Skip(err)
	}
	var pages uint64
	if _, err := fmt.Sscan(strings.Fields(string(statm))[0], &pages); err != nil {
		t.Fatal(err)
	}
	limits, err := LimitsForManyKeys(1, 1000000)
	if err != nil {
		t.Fatal(err)
	}
	var before syscall.Rlimit
	if err := syscall.Getrlimit(limitOfAddresses, &before); err != nil {
		t.Fatal(err)
	}
	less := syscall.Rlimit{Cur: pages*uint64(os.Getpagesize()) + 256<<20, Max: before.Max}
	if err := syscall.Setrlimit(limitOfAddresses, &less); err != nil {
		t.Skip(err)
	}
	_, err = Open(limits)
	if err := syscall.Setrlimit(limitOfAddresses, &before); err != nil {
		t.Fatal(err)
	}
	if !errors.Is(err, ErrNoMemory) {
		t.Fatal(err)
	}
}

// loaded is a tree with these keys, and values from 1 on.
func loaded(keys ...string) *Tree {
	var pairs []Pair
	for i, key := range keys {
		pairs = append(pairs, Pair{[]byte(key), []byte(fmt.Sprint(i + 1))})
	}
	tree, err := OpenFrom(Limits{Actors: 2, Pages: 64, Records: 832}, pairs)
	if err != nil {
		log.Fatal(err)
	}
	return tree
}

func ExampleTree_With() {
	tree := loaded("Bern")
	err := tree.With(func(seat *Seat) error {
		value, _, err := seat.Get([]byte("Bern"))
		fmt.Printf("%s\n", value)
		return err
	})
	fmt.Println(err)
	// Output:
	// 1
	// <nil>
}

func ExampleTree_CloseWithPairs() {
	pairs, err := loaded("Bern", "Oslo").CloseWithPairs()
	fmt.Printf("%s %v\n", pairs, err)
	// Output: [{Bern 1} {Oslo 2}] <nil>
}

func ExampleSeat_AppendGet() {
	seat := loaded("Bern").Seat()
	defer seat.Release()
	line, found, err := seat.AppendGet([]byte("Bern="), []byte("Bern"))
	fmt.Printf("%s %v %v\n", line, found, err)
	// Output: Bern=1 true <nil>
}

func ExampleSeat_Insert() {
	seat := loaded("Bern").Seat()
	defer seat.Release()
	inserted, found, err := seat.Insert([]byte("Bern"), []byte("2"))
	fmt.Printf("%v %q %v\n", inserted, found, err)
	// Output: false "1" <nil>
}

func ExampleSeat_Upsert() {
	seat := loaded("Bern").Seat()
	defer seat.Release()
	old, found, err := seat.Upsert([]byte("Bern"), []byte("2"))
	fmt.Printf("%s %v %v\n", old, found, err)
	_, _, err = seat.Upsert([]byte("Bern"), make([]byte, 65))
	fmt.Println(err == ErrTooLong)
	// Output:
	// 1 true <nil>
	// true
}

func ExampleSeat_Replace() {
	seat := loaded("Bern").Seat()
	defer seat.Release()
	_, found, err := seat.Replace([]byte("Oslo"), []byte("2"))
	fmt.Println(found, err)
	// Output: false <nil>
}

func ExampleSeat_Delete() {
	seat := loaded("Bern").Seat()
	defer seat.Release()
	old, found, err := seat.Delete([]byte("Bern"))
	fmt.Printf("%s %v %v\n", old, found, err)
	// Output: 1 true <nil>
}

func ExampleSeat_DeleteIf() {
	seat := loaded("Bern").Seat()
	defer seat.Release()
	deleted, found, err := seat.DeleteIf([]byte("Bern"), []byte("2"))
	fmt.Printf("%v %s %v\n", deleted, found, err)
	// Output: false 1 <nil>
}

func ExampleSeat_Add() {
	seat := loaded().Seat()
	defer seat.Release()
	for i := 0; i < 2; i++ {
		old, found, err := seat.Add([]byte("visits"), 5)
		fmt.Println(old, found, err)
	}
	// Output:
	// 0 false <nil>
	// 5 true <nil>
}

func ExampleSeat_WalkRange() {
	seat := loaded("a", "b", "c").Seat()
	defer seat.Release()
	err := seat.WalkRange(Range{From: []byte("b")}, func(key, value []byte) bool {
		fmt.Printf("%s %s\n", key, value)
		return true
	})
	fmt.Println(err)
	// Output:
	// b 2
	// c 3
	// <nil>
}

func ExampleSeat_Floor() {
	seat := loaded("a", "c").Seat()
	defer seat.Release()
	pair, found, err := seat.Floor([]byte("b"))
	fmt.Printf("%s %v %v\n", pair, found, err)
	// Output: {a 1} true <nil>
}

func ExampleAppendText() {
	key := AppendUint64(AppendText(nil, "Bern"), 7)
	city, rest, _ := TakeText(key)
	number, _, _ := TakeUint64(rest)
	fmt.Println(city, number)
	// Output: Bern 7
}
