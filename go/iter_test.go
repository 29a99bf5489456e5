//go:build go1.23

package bwtree

import (
	"iter"
	"testing"
)

// All and Backward are sequences of pairs, which a loop takes from Go 1.23 on.
func TestLoops(t *testing.T) {
	var err error
	seat := loaded("a", "b", "c").Seat()
	defer seat.Release()
	var all iter.Seq2[[]byte, []byte] = seat.All(Range{From: []byte("b")}, &err)
	text := ""
	for key, value := range all {
		text += string(key) + string(value)
	}
	for key := range seat.Backward(Range{}, &err) {
		text += string(key)
		if string(key) == "b" {
			break
		}
	}
	if text != "b2c3cb" || err != nil {
		t.Fatal(text, err)
	}
	for range seat.All(Range{From: make([]byte, 65)}, &err) {
		t.Fatal("a pair")
	}
	if err != ErrTooLong {
		t.Fatal(err)
	}
}
