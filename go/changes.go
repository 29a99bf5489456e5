package bwtree

// #include "bwtree.h"
//
// static uint32_t delete_if(const bwtree *tree, uint32_t seat, const bwtree_bytes *key, const bwtree_bytes *expected, bwtree_bytes *old) {
//     return bwtree_delete_if(tree, seat, key->bytes, key->length, expected->bytes, expected->length, old);
// }
// static uint32_t add(const bwtree *tree, uint32_t seat, const bwtree_bytes *key, uint64_t number, bwtree_bytes *old) {
//     return bwtree_add(tree, seat, key->bytes, key->length, number, old);
// }
import "C"

import "encoding/binary"

// DeleteIf makes a key absent where it has the expected value, and says whether it had; else found is the value that the key has, nil where it has none. It
// returns ErrFull, ErrTooLong, ErrClosed or ErrBusy.
func (seat *Seat) DeleteIf(key, expected []byte) (deleted bool, found []byte, err error) {
	if err := seat.pass(key, expected, nil); err != nil {
		return false, nil, err
	}
	var status C.uint32_t
	for wait := (wait{}); wait.again(seat, err); {
		status, err = seat.counted(C.delete_if(seat.handle(), C.uint32_t(seat.number), &seat.key, &seat.expected, &seat.old), -1)
	}
	return seat.compared(status, err)
}

// Add adds a number, modulo 2^64, to the one that a key's value of eight bytes is, the highest byte first; a key without a value gets the number:
// the number before, and whether there was one. It returns ErrDiffers where the value has not eight bytes: the key keeps it; and ErrFull, ErrTooLong, ErrClosed
// or ErrBusy.
func (seat *Seat) Add(key []byte, number uint64) (old uint64, found bool, err error) {
	if err := seat.pass(key, nil, nil); err != nil {
		return 0, false, err
	}
	var status C.uint32_t
	for wait := (wait{}); wait.again(seat, err); {
		status, err = seat.counted(C.add(seat.handle(), C.uint32_t(seat.number), &seat.key, C.uint64_t(number), &seat.old), 1)
	}
	if err != nil || status == C.BWTREE_OK {
		return 0, false, err
	}
	if status == C.BWTREE_DIFFERS {
		return 0, false, ErrDiffers
	}
	return binary.BigEndian.Uint64(written(&seat.old)), true, nil
}

// Replace gives a key a value where it has one: the value that the key had, and whether it had one. It makes several calls, and takes effect atomically in the
// last one. It returns ErrFull, ErrTooLong, ErrClosed or ErrBusy.
func (seat *Seat) Replace(key, value []byte) ([]byte, bool, error) {
	if len(value) > MaxLength {
		return nil, false, ErrTooLong
	}
	old, found, err := seat.Get(key)
	for err == nil && found {
		var swapped bool
		var other []byte
		if swapped, other, err = seat.CompareAndSwap(key, old, value); swapped {
			return old, true, nil
		}
		old, found = other, other != nil
	}
	return nil, false, err
}
