// Package bwtree is an ordered map from byte strings to byte strings, in memory, for many goroutines, without locks: libbwtree by cgo.
//
// A Tree is shared by goroutines, and lends its seats, 1 to 16 of them, a large one 1 to 63. A Seat is where calls are made, by one goroutine
// at a time. Keys and values have at most 64 bytes.
//
// The tree is linearizable (Herlihy and Wing), proved over all states of the tree: all calls form one sequential history of an ordered map, in which a
// call that has returned precedes a call that begins afterwards, whatever goroutines and seats make the two. In a program's own proof, order between two
// seats comes from meeting or a note, because the language has no clock.
//
// Errors: a call that returns one changed no key, and its other results are zero. Each call of a seat returns ErrTooLong, where a key or value has more than 64
// bytes; ErrClosed, where the seat was released, or leased from a tree that was closed; and ErrBusy, where another goroutine is inside the seat. A write also
// returns ErrFull. All are of the type Error, and can be compared, or matched by errors.Is.
//
// cgo finds bwtree.h and libbwtree by pkg-config: PKG_CONFIG_PATH names the folder of bwtree.pc.
package bwtree

// #include <stdlib.h>
// #include "bwtree.h"
//
// // What calls are passed lies in the seat: cgo looks for no pointers in it, and allocates nothing.
// static uint32_t get(const bwtree *tree, uint32_t seat, const bwtree_bytes *key, bwtree_bytes *value) {
//     return bwtree_get(tree, seat, key->bytes, key->length, value);
// }
// static uint32_t insert(const bwtree *tree, uint32_t seat, const bwtree_bytes *key, const bwtree_bytes *value, bwtree_bytes *old) {
//     return bwtree_insert(tree, seat, key->bytes, key->length, value->bytes, value->length, old);
// }
// static uint32_t upsert(const bwtree *tree, uint32_t seat, const bwtree_bytes *key, const bwtree_bytes *value, bwtree_bytes *old) {
//     return bwtree_upsert(tree, seat, key->bytes, key->length, value->bytes, value->length, old);
// }
// static uint32_t delete(const bwtree *tree, uint32_t seat, const bwtree_bytes *key, bwtree_bytes *old) {
//     return bwtree_delete(tree, seat, key->bytes, key->length, old);
// }
// static uint32_t compare_and_set(const bwtree *tree, uint32_t seat, const bwtree_bytes *key, const bwtree_bytes *expected, const bwtree_bytes *value,
//                                 bwtree_bytes *old) {
//     return bwtree_compare_and_set(tree, seat, key->bytes, key->length, expected->bytes, expected->length, value->bytes, value->length, old);
// }
// static uint32_t tidy(const bwtree *tree, uint32_t seat, const bwtree_bytes *key) {
//     return bwtree_tidy(tree, seat, key->bytes, key->length);
// }
import "C"

import (
	"context"
	"runtime"
	"sync/atomic"
	"time"
	"unsafe"
)

// MaxLength is how many bytes a key or a value may have.
const MaxLength = C.BWTREE_MAX_LENGTH

// steps is how many steps an operation is resumed for at a time.
const steps = 1 << 16

// Error says why nothing was done. It is a status of bwtree.h.
type Error uint32

const (
	ErrFull      Error = C.BWTREE_FULL       // nothing was free for a change, and no key was changed
	ErrClosed    Error = C.BWTREE_CLOSED     // the tree is closed
	ErrBusy      Error = C.BWTREE_BUSY       // a seat is lent, or another call is inside it
	ErrTooLong   Error = C.BWTREE_TOO_LONG   // a key or a value has more than 64 bytes
	ErrBadLimits Error = C.BWTREE_BAD_LIMITS // a limit is outside its range
	ErrNoMemory  Error = C.BWTREE_NO_MEMORY  // malloc refused
	ErrBadOrder  Error = C.BWTREE_BAD_ORDER  // the keys of pairs don't ascend
	ErrDiffers   Error = C.BWTREE_DIFFERS    // a value that a number was to be added to has not eight bytes

	// the library that runs is of a version that doesn't go with that of bwtree.h, with which this package was built
	ErrBadVersion Error = C.BWTREE_BAD_VERSION
)

// Error describes the reason.
func (e Error) Error() string {
	return "bwtree: " + C.GoString(C.bwtree_text(C.uint32_t(e)))
}

// settled is nil for a status of an operation that took place, and else says why there is none.
func settled(status C.uint32_t) error {
	if status < C.BWTREE_FULL {
		return nil
	}
	return Error(status)
}

// Limits say how large a tree is.
type Limits struct {
	Actors  uint64 // seats: 1 to 16, of a large tree to 63
	Pages   uint64 // pages: 64 to 4,096, of a large tree to 4,194,304, a multiple of 64
	Records uint64 // records, of 4,096 bytes each, but with Widths: 64 to 16,384, of a large tree to 67,108,864, a multiple of 64
	Large   bool   // whether it is a large tree, whose pages take fewer records
	Widths  Widths // of a large tree's records, where they have not all the same one
}

// Widths say that records have three widths: narrow ones for single changes, then those for pages, then the others, of 512 words. A word has 8 bytes. None is
// said by zeros.
type Widths struct {
	NarrowRecords uint64 // how many are narrow: a multiple of 64
	WideFrom      uint64 // the first one of 512 words: a multiple of 64, below Records, and not 0
	NarrowWords   uint64 // how many words a narrow one has: 8 at least
	PageWords     uint64 // how many words one for pages has: 24 to 512, and not less than a narrow one
}

// shown are the limits that C shows.
func shown(limits C.bwtree_limits) Limits {
	var widths Widths
	if limits.large == 2 {
		widths = Widths{uint64(limits.narrow_records), uint64(limits.wide_from), uint64(limits.narrow_words), uint64(limits.page_words)}
	}
	return Limits{uint64(limits.actors), uint64(limits.pages), uint64(limits.records), limits.large > 0, widths}
}

// raw are the limits as C has them.
func (limits Limits) raw() C.bwtree_limits {
	raw := C.bwtree_limits{actors: C.uint64_t(limits.Actors), pages: C.uint64_t(limits.Pages), records: C.uint64_t(limits.Records), epoch: 1}
	if limits.Large {
		raw.large = 1
	}
	if widths := limits.Widths; widths != (Widths{}) {
		raw.large = 2
		if !limits.Large {
			raw.large = 3 // widths of a small tree are refused
		}
		raw.narrow_records, raw.wide_from = C.uint64_t(widths.NarrowRecords), C.uint64_t(widths.WideFrom)
		raw.narrow_words, raw.page_words = C.uint64_t(widths.NarrowWords), C.uint64_t(widths.PageWords)
	}
	return raw
}

// LimitsForKeys are for so many seats and so many different keys, all counted that the tree ever has. It returns ErrBadLimits for no seats or more than 16, and
// for more keys than fit: 12,199 for one seat, 11,535 for 4, 9,751 for 16.
func LimitsForKeys(seats, keys uint64) (Limits, error) {
	var limits C.bwtree_limits
	if err := settled(C.bwtree_limits_for_keys(C.uint64_t(seats), C.uint64_t(keys), &limits)); err != nil {
		return Limits{}, err
	}
	return shown(limits), nil
}

// LimitsForPairs are limits for a large tree of pairs whose keys and values mostly have at most so many bytes, of 16 and 8 in some 141 bytes a key, and with
// several seats in 7 MB more if the keys are few. Longer pairs are taken, too, as far as there is room. It returns ErrBadLimits for no seats or more than 63,
// for too many keys, and for more than 64 bytes.
func LimitsForPairs(seats, keys, keyBytes, valueBytes uint64) (Limits, error) {
	var limits C.bwtree_limits
	if err := settled(C.bwtree_limits_for_pairs(C.uint64_t(seats), C.uint64_t(keys), C.uint64_t(keyBytes), C.uint64_t(valueBytes), &limits)); err != nil {
		return Limits{}, err
	}
	return shown(limits), nil
}

// LimitsForManyKeys are limits for a large tree of pairs of any length: up to 27 million keys, in some 500 bytes each, and with several seats in 26 MB more if
// the keys are few: so 16,384 updates have room while a thread is stopped inside a call. It returns ErrBadLimits for no seats or more than 63, and for too many
// keys.
func LimitsForManyKeys(seats, keys uint64) (Limits, error) {
	var limits C.bwtree_limits
	if err := settled(C.bwtree_limits_for_many_keys(C.uint64_t(seats), C.uint64_t(keys), &limits)); err != nil {
		return Limits{}, err
	}
	return shown(limits), nil
}

// Room says how many pages and records are free.
type Room struct {
	FreePages, FreeRecords uint64
}

// Pair is a key and its value.
type Pair struct {
	Key, Value []byte
}

// A Tree is an ordered map that goroutines share.
type Tree struct {
	// the handle lies in C's memory, where it stays
	handle *C.bwtree
	limits Limits
	// the numbers of the seats that are free
	free chan uint32
	// how many more keys each seat has set than deleted
	counts [C.BWTREE_MAX_SEATS]count
}

// A count has a cache line of its own.
type count struct {
	keys atomic.Int64
	_    [56]byte
}

// given are bytes as C reads them.
func given(text []byte) (C.bwtree_bytes, error) {
	raw := C.bwtree_bytes{length: C.uint64_t(len(text))}
	if len(text) > MaxLength {
		return raw, ErrTooLong
	}
	for i, b := range text {
		raw.bytes[i] = C.uint8_t(b)
	}
	return raw, nil
}

// Open opens an empty tree. Close frees it; so does the collector, once nothing refers to the tree or a seat of it. It returns ErrBadLimits for a limit outside
// its range; ErrNoMemory; and ErrBadVersion.
func Open(limits Limits) (*Tree, error) {
	return OpenFrom(limits, nil)
}

// OpenFrom opens a tree with these pairs, whose keys ascend. It returns ErrFull where they don't all fit, ErrBadOrder where the keys don't ascend, ErrTooLong,
// and what Open returns: no tree is open then.
func OpenFrom(limits Limits, pairs []Pair) (*Tree, error) {
	all := make([]C.bwtree_pair, len(pairs))
	for i, pair := range pairs {
		var err error
		if all[i].key, err = given(pair.Key); err != nil {
			return nil, err
		}
		if all[i].value, err = given(pair.Value); err != nil {
			return nil, err
		}
	}
	handle := (*C.bwtree)(C.calloc(1, C.sizeof_bwtree))
	if handle == nil {
		return nil, ErrNoMemory
	}
	raw := limits.raw()
	var first *C.bwtree_pair
	if len(all) > 0 {
		first = &all[0]
	}
	status := C.bwtree_open_from(&raw, first, C.size_t(len(all)), handle)
	if status == C.BWTREE_SPENT {
		status = C.BWTREE_FULL
	}
	if err := settled(status); err != nil {
		C.free(unsafe.Pointer(handle))
		return nil, err
	}
	tree := &Tree{handle: handle, limits: limits, free: make(chan uint32, limits.Actors)}
	tree.counts[0].keys.Store(int64(len(all)))
	for number := uint32(0); number < uint32(limits.Actors); number++ {
		tree.free <- number
	}
	runtime.SetFinalizer(tree, func(tree *Tree) {
		C.bwtree_close(tree.handle)
		C.free(unsafe.Pointer(tree.handle))
	})
	return tree, nil
}

// withAllSeats runs close while all seats are taken. It returns ErrBusy where one is lent.
func (tree *Tree) withAllSeats(close func() error) error {
	var taken []uint32
	defer func() {
		for _, number := range taken {
			tree.free <- number
		}
	}()
	for len(taken) < cap(tree.free) {
		select {
		case number := <-tree.free:
			taken = append(taken, number)
		default:
			return ErrBusy
		}
	}
	err := close()
	runtime.KeepAlive(tree)
	return err
}

// Len is how many keys the tree has: exact when no call is under way; otherwise it may lack some calls that are.
func (tree *Tree) Len() int {
	sum := int64(0)
	for i := range tree.counts {
		sum += tree.counts[i].keys.Load()
	}
	if sum < 0 {
		return 0
	}
	return int(sum)
}

// Close closes the tree and frees it. It returns ErrBusy where a seat is lent: the tree stays open; and ErrClosed where the tree is closed.
func (tree *Tree) Close() error {
	return tree.withAllSeats(func() error {
		return settled(C.bwtree_close(tree.handle))
	})
}

// CloseWithPairs closes the tree, frees it, and hands its pairs over, keys ascending. It returns what Close does; and ErrNoMemory: the tree stays open.
func (tree *Tree) CloseWithPairs() (pairs []Pair, err error) {
	err = tree.withAllSeats(func() error {
		var count C.uint64_t
		status := C.bwtree_close_pairs(tree.handle, nil, 0, &count)
		if status != C.BWTREE_NO_ROOM {
			return settled(status)
		}
		raw := make([]C.bwtree_pair, count)
		if err := settled(C.bwtree_close_pairs(tree.handle, &raw[0], C.size_t(count), &count)); err != nil {
			return err
		}
		for i := range raw {
			pairs = append(pairs, Pair{taken(&raw[i].key), taken(&raw[i].value)})
		}
		return nil
	})
	return pairs, err
}

// Seat leases a seat, and waits for one where none is free. Release gives it back. A goroutine has no storage of its own, so it has no seat of its own either:
// With leases one for a function.
func (tree *Tree) Seat() *Seat {
	return tree.lease(<-tree.free)
}

// SeatContext leases a seat as Seat does. It returns the context's error where that is done first.
func (tree *Tree) SeatContext(ctx context.Context) (*Seat, error) {
	select {
	case number := <-tree.free:
		return tree.lease(number), nil
	case <-ctx.Done():
		return nil, ctx.Err()
	}
}

// With leases a seat, waits for one where none is free, runs a function with it, and releases it, also where the function panics. Its error is that of the
// function.
func (tree *Tree) With(run func(seat *Seat) error) error {
	seat := tree.Seat()
	defer seat.Release()
	return run(seat)
}

// lease is a seat with this number. One that is dropped without Release goes back once the collector finds it.
func (tree *Tree) lease(number uint32) *Seat {
	seat := &Seat{tree: tree, number: number, released: new(atomic.Bool)}
	runtime.SetFinalizer(seat, (*Seat).Release)
	return seat
}

// TrySeat leases a seat, or is nil where none is free.
func (tree *Tree) TrySeat() *Seat {
	select {
	case number := <-tree.free:
		return tree.lease(number)
	default:
		return nil
	}
}

// noCopy has go vet report each copy of a struct that it is in.
type noCopy struct{}

func (*noCopy) Lock()   {}
func (*noCopy) Unlock() {}

// A Seat is where one goroutine at a time calls a tree. It is not copied: go vet reports a copy.
type Seat struct {
	_      noCopy
	tree   *Tree
	number uint32
	// whether the number was given back, by the seat or a copy of it
	released *atomic.Bool
	// how long a write waits while the tree is full
	patience time.Duration
	// what the library reads and writes, here so that no call allocates it
	key, expected, value, old C.bwtree_bytes
	page                      *C.bwtree_page_pairs
}

// closed is a handle that was never opened: each call on it answers that the tree is closed.
var closed = (*C.bwtree)(C.calloc(1, C.sizeof_bwtree))

// handle is the tree's, or a closed one, once the seat was given back.
func (seat *Seat) handle() *C.bwtree {
	if seat.tree == nil {
		return closed
	}
	return seat.tree.handle
}

// Release gives the seat back to its tree. Other calls on it return ErrClosed from then on; a second Release does nothing.
func (seat *Seat) Release() {
	if tree := seat.tree; tree != nil {
		seat.tree = nil
		if seat.released.CompareAndSwap(false, true) {
			tree.free <- seat.number
		}
	}
}

// fill copies bytes, at most 64, to where the library reads them.
func fill(to *C.bwtree_bytes, bytes []byte) {
	to.length = C.uint64_t(copy((*[MaxLength]byte)(unsafe.Pointer(&to.bytes[0]))[:], bytes))
}

// pass puts what a call is passed where the library reads it. It returns ErrTooLong where something has more than 64 bytes.
func (seat *Seat) pass(key, expected, value []byte) error {
	if len(key) > MaxLength || len(expected) > MaxLength || len(value) > MaxLength {
		return ErrTooLong
	}
	fill(&seat.key, key)
	fill(&seat.expected, expected)
	fill(&seat.value, value)
	return nil
}

// written are the bytes that the library wrote, until it writes there again.
func written(bytes *C.bwtree_bytes) []byte {
	return (*[MaxLength]byte)(unsafe.Pointer(&bytes.bytes[0]))[:bytes.length]
}

// taken is a copy of the bytes that the library wrote.
func taken(bytes *C.bwtree_bytes) []byte {
	return append(make([]byte, 0, bytes.length), written(bytes)...)
}

// done resumes an operation until it is done, and says what it came to.
func (seat *Seat) done(status C.uint32_t) (C.uint32_t, error) {
	for status == C.BWTREE_SPENT {
		var page C.bwtree_page_pairs
		status = C.bwtree_resume(seat.handle(), C.uint32_t(seat.number), steps, &seat.old, &page)
	}
	runtime.KeepAlive(seat)
	return status, settled(status)
}

// counted is what an operation came to that changes the number of keys by this where it is OK.
func (seat *Seat) counted(status C.uint32_t, more int64) (C.uint32_t, error) {
	status, err := seat.done(status)
	if status == C.BWTREE_OK {
		seat.tree.counts[seat.number].keys.Add(more)
	}
	return status, err
}

// shown is the value that goes with one of the statuses.
func (seat *Seat) shown(status C.uint32_t, err error, withValue C.uint32_t) ([]byte, bool, error) {
	if err != nil || status != withValue {
		return nil, false, err
	}
	return taken(&seat.old), true, nil
}

// compared is what a call with an expected value came to.
func (seat *Seat) compared(status C.uint32_t, err error) (done bool, found []byte, _ error) {
	found, _, err = seat.shown(status, err, C.BWTREE_DIFFERS)
	return err == nil && status == C.BWTREE_OK, found, err
}

// looked is what a lookup came to, with the value in seat.old.
func (seat *Seat) looked(key []byte) (C.uint32_t, error) {
	if err := seat.pass(key, nil, nil); err != nil {
		return 0, err
	}
	return seat.done(C.get(seat.handle(), C.uint32_t(seat.number), &seat.key, &seat.old))
}

// Get is the value of a key, and whether it has one. It returns ErrTooLong, ErrClosed or ErrBusy.
func (seat *Seat) Get(key []byte) (value []byte, found bool, err error) {
	status, err := seat.looked(key)
	return seat.shown(status, err, C.BWTREE_OK)
}

// AppendGet puts the value of a key behind what a slice has, and says whether there is one: it allocates nothing where the slice has room. It returns
// ErrTooLong, ErrClosed or ErrBusy, with the slice as it was.
func (seat *Seat) AppendGet(to, key []byte) (with []byte, found bool, err error) {
	status, err := seat.looked(key)
	if err != nil || status != C.BWTREE_OK {
		return to, false, err
	}
	return append(to, written(&seat.old)...), true, nil
}

// Contains says whether a key has a value. It allocates nothing. It returns ErrTooLong, ErrClosed or ErrBusy.
func (seat *Seat) Contains(key []byte) (bool, error) {
	status, err := seat.looked(key)
	return err == nil && status == C.BWTREE_OK, err
}

// Insert gives a key a value where it has none, and says whether it did; else found is the value that the key has. It returns ErrFull, ErrTooLong, ErrClosed or
// ErrBusy.
func (seat *Seat) Insert(key, value []byte) (inserted bool, found []byte, err error) {
	if err := seat.pass(key, nil, value); err != nil {
		return false, nil, err
	}
	var status C.uint32_t
	for wait := (wait{}); wait.again(seat, err); {
		status, err = seat.counted(C.insert(seat.handle(), C.uint32_t(seat.number), &seat.key, &seat.value, &seat.old), 1)
	}
	found, _, err = seat.shown(status, err, C.BWTREE_EXISTS)
	return err == nil && status == C.BWTREE_OK, found, err
}

// Upsert gives a key a value: the value that the key had before, and whether it had one. It returns ErrFull, ErrTooLong, ErrClosed or ErrBusy.
func (seat *Seat) Upsert(key, value []byte) (old []byte, found bool, err error) {
	if err := seat.pass(key, nil, value); err != nil {
		return nil, false, err
	}
	var status C.uint32_t
	for wait := (wait{}); wait.again(seat, err); {
		status, err = seat.counted(C.upsert(seat.handle(), C.uint32_t(seat.number), &seat.key, &seat.value, &seat.old), 1)
	}
	return seat.shown(status, err, C.BWTREE_REPLACED)
}

// Delete makes a key absent: the value that the key had, and whether it had one. It returns ErrFull, ErrTooLong, ErrClosed or ErrBusy.
func (seat *Seat) Delete(key []byte) (old []byte, found bool, err error) {
	if err := seat.pass(key, nil, nil); err != nil {
		return nil, false, err
	}
	var status C.uint32_t
	for wait := (wait{}); wait.again(seat, err); {
		status, err = seat.counted(C.delete(seat.handle(), C.uint32_t(seat.number), &seat.key, &seat.old), -1)
	}
	return seat.shown(status, err, C.BWTREE_OK)
}

// CompareAndSwap gives a key the value where it has the expected one, and says whether it had; else found is the value that the key has, nil where it has
// none. It returns ErrFull, ErrTooLong, ErrClosed or ErrBusy.
func (seat *Seat) CompareAndSwap(key, expected, value []byte) (swapped bool, found []byte, err error) {
	if err := seat.pass(key, expected, value); err != nil {
		return false, nil, err
	}
	var status C.uint32_t
	for wait := (wait{}); wait.again(seat, err); {
		status, err = seat.done(C.compare_and_set(seat.handle(), C.uint32_t(seat.number), &seat.key, &seat.expected, &seat.value, &seat.old))
	}
	return seat.compared(status, err)
}

// Tidy does what upkeep is due at the leaf of a key; no value changes. It returns ErrFull, ErrTooLong, ErrClosed or ErrBusy.
func (seat *Seat) Tidy(key []byte) (err error) {
	if err := seat.pass(key, nil, nil); err != nil {
		return err
	}
	for wait := (wait{}); wait.again(seat, err); {
		_, err = seat.done(C.tidy(seat.handle(), C.uint32_t(seat.number), &seat.key))
	}
	return err
}

// Room says how many pages and records are free. It returns ErrClosed or ErrBusy.
func (seat *Seat) Room() (Room, error) {
	var room C.bwtree_room
	err := settled(C.bwtree_free_room(seat.handle(), C.uint32_t(seat.number), &room))
	runtime.KeepAlive(seat)
	return Room{uint64(room.free_pages), uint64(room.free_records)}, err
}
