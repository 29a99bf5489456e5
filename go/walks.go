package bwtree

// #include "bwtree.h"
//
// static uint32_t page(const bwtree *tree, uint32_t seat, const bwtree_bytes *from, bwtree_page_pairs *page) {
//     return bwtree_page(tree, seat, from->bytes, from->length, page);
// }
// static uint32_t back(const bwtree *tree, uint32_t seat, const bwtree_bytes *upto, bwtree_page_pairs *page) {
//     return bwtree_back(tree, seat, upto->bytes, upto->length, page);
// }
import "C"

import (
	"bytes"
	"runtime"
)

// filled is the page that calls fill, made with the first one.
func (seat *Seat) filled() *C.bwtree_page_pairs {
	if seat.page == nil {
		seat.page = new(C.bwtree_page_pairs)
	}
	return seat.page
}

// turned is a page that a call has begun to fill. All its keys and values lie in one slice.
func (seat *Seat) turned(status C.uint32_t) (pairs []Pair, next []byte, more bool, err error) {
	page := seat.page
	for status == C.BWTREE_SPENT {
		status = C.bwtree_resume(seat.handle(), C.uint32_t(seat.number), steps, &seat.old, page)
	}
	runtime.KeepAlive(seat)
	if err := settled(status); err != nil {
		return nil, nil, false, err
	}
	size := 0
	for i := range page.pairs[:page.count] {
		size += int(page.pairs[i].key.length + page.pairs[i].value.length)
	}
	all := make([]byte, 0, size)
	behind := func(bytes *C.bwtree_bytes) []byte {
		at := len(all)
		all = append(all, written(bytes)...)
		return all[at:len(all):len(all)]
	}
	pairs = make([]Pair, page.count)
	for i := range pairs {
		pairs[i] = Pair{behind(&page.pairs[i].key), behind(&page.pairs[i].value)}
	}
	if page.more != 0 {
		next = taken(&page.next)
	}
	return pairs, next, page.more != 0, nil
}

// Page is the pairs of one leaf from a key on, keys ascending, and where the next page begins, if there is more. A page may be empty and have more after it.
// It returns ErrTooLong, ErrClosed or ErrBusy.
func (seat *Seat) Page(from []byte) (pairs []Pair, next []byte, more bool, err error) {
	if err := seat.pass(from, nil, nil); err != nil {
		return nil, nil, false, err
	}
	return seat.turned(C.page(seat.handle(), C.uint32_t(seat.number), &seat.key, seat.filled()))
}

// Back is the pairs of the leaf that has a key, up to that key, keys ascending, and the key at which the next page backward begins, if there is more. It
// returns ErrTooLong, ErrClosed or ErrBusy.
func (seat *Seat) Back(upto []byte) (pairs []Pair, next []byte, more bool, err error) {
	if err := seat.pass(upto, nil, nil); err != nil {
		return nil, nil, false, err
	}
	return seat.turned(C.back(seat.handle(), C.uint32_t(seat.number), &seat.key, seat.filled()))
}

// A Range is the keys of a walk: from one on, and below another one. Below is nil where there is no bound.
type Range struct {
	From, Below []byte
}

// Prefix is the range of the keys that begin with these bytes.
func Prefix(prefix []byte) Range {
	return Range{prefix, KeyBehind(prefix)}
}

// greatest is the greatest key.
var greatest = bytes.Repeat([]byte{255}, MaxLength)

// Walk calls each for the pairs from a key on, keys ascending, until it returns false. What is there throughout is shown, and what never is there isn't. It
// returns ErrTooLong, ErrClosed or ErrBusy: the pairs before were shown.
func (seat *Seat) Walk(from []byte, each func(key, value []byte) bool) error {
	return seat.WalkRange(Range{From: from}, each)
}

// WalkRange is Walk for the keys of a range. It returns ErrTooLong where a bound has more than 64 bytes; ErrClosed or ErrBusy: the pairs before were shown.
func (seat *Seat) WalkRange(keys Range, each func(key, value []byte) bool) error {
	if len(keys.Below) > MaxLength {
		return ErrTooLong
	}
	from := keys.From
	for more := true; more; {
		var pairs []Pair
		var err error
		if pairs, from, more, err = seat.Page(from); err != nil {
			return err
		}
		for _, pair := range pairs {
			if keys.Below != nil && bytes.Compare(pair.Key, keys.Below) >= 0 || !each(pair.Key, pair.Value) {
				return nil
			}
		}
	}
	return nil
}

// WalkBack is WalkRange from the greatest key of a range down. It returns ErrTooLong, ErrClosed or ErrBusy, as WalkRange does.
func (seat *Seat) WalkBack(keys Range, each func(key, value []byte) bool) error {
	if len(keys.From) > MaxLength || len(keys.Below) > MaxLength {
		return ErrTooLong
	}
	upto, more := greatest, true
	if keys.Below != nil {
		upto, more = KeyBefore(keys.Below)
	}
	for more {
		var pairs []Pair
		var err error
		if pairs, upto, more, err = seat.Back(upto); err != nil {
			return err
		}
		for i := len(pairs) - 1; i >= 0; i-- {
			if bytes.Compare(pairs[i].Key, keys.From) < 0 || !each(pairs[i].Key, pairs[i].Value) {
				return nil
			}
		}
	}
	return nil
}

// All is the pairs of a range for a loop, keys ascending: from Go 1.23 on, for key, value := range seat.All(keys, &err). Where a page can't be read, the loop
// ends, and err is ErrTooLong, ErrClosed or ErrBusy; else it is nil.
func (seat *Seat) All(keys Range, err *error) func(yield func(key, value []byte) bool) {
	return func(yield func(key, value []byte) bool) {
		*err = seat.WalkRange(keys, yield)
	}
}

// Backward is All from the greatest key of a range down. Where the loop ends early, err is ErrTooLong, ErrClosed or ErrBusy.
func (seat *Seat) Backward(keys Range, err *error) func(yield func(key, value []byte) bool) {
	return func(yield func(key, value []byte) bool) {
		*err = seat.WalkBack(keys, yield)
	}
}

// nearest is the first pair of pages from a key on, or of pages backward up to it.
func nearest(page func([]byte) ([]Pair, []byte, bool, error), at []byte, isBack bool) (pair Pair, found bool, err error) {
	for more := true; more; {
		var pairs []Pair
		if pairs, at, more, err = page(at); err != nil {
			return Pair{}, false, err
		}
		if len(pairs) > 0 && isBack {
			return pairs[len(pairs)-1], true, nil
		}
		if len(pairs) > 0 {
			return pairs[0], true, nil
		}
	}
	return Pair{}, false, nil
}

// First is the pair of the least key, and whether there is one. As with the functions below, the answer is atomic if the first page that is read has a pair;
// otherwise it is a walk's. It returns ErrClosed or ErrBusy.
func (seat *Seat) First() (Pair, bool, error) {
	return nearest(seat.Page, nil, false)
}

// Last is the pair of the greatest key. It returns ErrClosed or ErrBusy.
func (seat *Seat) Last() (Pair, bool, error) {
	return nearest(seat.Back, greatest, true)
}

// Ceiling is the pair of the least key that isn't below this one. It returns ErrTooLong, ErrClosed or ErrBusy.
func (seat *Seat) Ceiling(key []byte) (Pair, bool, error) {
	return nearest(seat.Page, key, false)
}

// Floor is the pair of the greatest key that isn't above this one. It returns ErrTooLong, ErrClosed or ErrBusy.
func (seat *Seat) Floor(key []byte) (Pair, bool, error) {
	return nearest(seat.Back, key, true)
}

// Higher is the pair of the least key above this one. It returns ErrTooLong, ErrClosed or ErrBusy.
func (seat *Seat) Higher(key []byte) (Pair, bool, error) {
	if len(key) > MaxLength {
		return Pair{}, false, ErrTooLong
	}
	if after := KeyAfter(key); after != nil {
		return seat.Ceiling(after)
	}
	return Pair{}, false, nil
}

// Lower is the pair of the greatest key below this one. It returns ErrTooLong, ErrClosed or ErrBusy.
func (seat *Seat) Lower(key []byte) (Pair, bool, error) {
	if len(key) > MaxLength {
		return Pair{}, false, ErrTooLong
	}
	if before, there := KeyBefore(key); there {
		return seat.Floor(before)
	}
	return Pair{}, false, nil
}
