package bwtree

// #include "bwtree_waits.h"
import "C"

import (
	"runtime"
	"time"
)

// FullHint says what may become of a write that returned ErrFull. It is a hint, made from what is free a moment later: nothing is proved of it, and other
// calls change it. Free records are counted over all widths. In a tree with records of three widths (Limits.Widths) a write may need one of 512 words, so there
// the hint is FullPassed only if one of these must be free, and never FullForNow.
type FullHint uint32

const (
	// FullPassed: a page is free now, and a record with room for any change.
	FullPassed FullHint = C.BWTREE_FULL_PASSED
	// FullForNow: no record is free, but pages are, and the limits have records enough for all pages: other seats hold records back.
	FullForNow FullHint = C.BWTREE_FULL_FOR_NOW
	// FullForGood: no page is free; or no record, and the limits have too few: the tree itself may have them all. In a large tree keys can be deleted then.
	// Where they just were, other seats may hold pages back still: so ask after a wait.
	FullForGood FullHint = C.BWTREE_FULL_FOR_GOOD
	// FullUnknown, of three widths alone: pages are free, but perhaps no record of 512 words, for now or for good. Wait; if that is in vain, a larger tree is
	// needed, or one for longer pairs.
	FullUnknown FullHint = C.BWTREE_FULL_UNKNOWN
)

// FullHint says what may become of a write that returned ErrFull. It returns ErrClosed or ErrBusy.
func (seat *Seat) FullHint() (FullHint, error) {
	var hint C.uint32_t
	if seat.tree == nil {
		return 0, ErrClosed
	}
	limits := seat.tree.limits.raw()
	err := settled(C.bwtree_full_hint(seat.tree.handle, C.uint32_t(seat.number), &limits, &hint))
	runtime.KeepAlive(seat)
	return FullHint(hint), err
}

// SetPatience sets how long a write waits while the tree is full, before it returns ErrFull. A seat that was just leased doesn't
// wait.
func (seat *Seat) SetPatience(most time.Duration) {
	seat.patience = most
}

const (
	yields   = 8
	shortest = 50 * time.Microsecond
	longest  = 5 * time.Millisecond
)

// A wait makes a write again while the tree is full, with longer pauses each time, until the seat's patience is at its end.
type wait struct {
	tries int
	end   time.Time
}

// again says whether to make the write, for the first time or once more, after a pause.
func (wait *wait) again(seat *Seat, err error) bool {
	wait.tries++
	if wait.tries == 1 {
		return true
	}
	if err != ErrFull || seat.patience <= 0 {
		return false
	}
	if wait.tries == 2 {
		wait.end = time.Now().Add(seat.patience)
	}
	left := time.Until(wait.end)
	if left <= 0 {
		return false
	}
	pauses := wait.tries - 2
	if pauses < yields {
		runtime.Gosched()
		return true
	}
	pause := longest
	if doublings := pauses - yields; doublings < 7 {
		pause = shortest << doublings
	}
	if pause > left {
		pause = left
	}
	time.Sleep(pause)
	return true
}
