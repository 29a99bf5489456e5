// Keys of numbers and texts sort as these do, since a tree compares keys byte by byte. A key is put together part by part, so that a tuple sorts by its first
// part, then by its second one. Keys that are compared have parts of the same kinds, in the same order. The bytes are the same in C, C++, Rust and Python:
//
//	uint64   eight bytes, the highest first
//	int64    the same, with the highest bit turned
//	float64  the same of its bits, all turned if it is negative, else the highest one alone: -Inf, .. -0, 0, .. Inf; a NaN is above or, with its sign set,
//	         below all of them
//	text     its bytes, each 0 as 0 255, and then 0 0
package bwtree

import (
	"encoding/binary"
	"math"
)

const top = 1 << 63

// AppendUint64 puts a number behind what a key has.
func AppendUint64(key []byte, number uint64) []byte {
	return binary.BigEndian.AppendUint64(key, number)
}

// AppendInt64 puts a signed number behind what a key has.
func AppendInt64(key []byte, number int64) []byte {
	return AppendUint64(key, uint64(number)^top)
}

// AppendFloat64 puts a float behind what a key has.
func AppendFloat64(key []byte, number float64) []byte {
	bits := math.Float64bits(number)
	if bits&top != 0 {
		return AppendUint64(key, ^bits)
	}
	return AppendUint64(key, bits^top)
}

// AppendTextStart puts a text without its end behind what a key has: the keys whose text begins with it begin with this one.
func AppendTextStart(key []byte, text string) []byte {
	for i := 0; i < len(text); i++ {
		key = append(key, text[i])
		if text[i] == 0 {
			key = append(key, 255)
		}
	}
	return key
}

// AppendText puts a text behind what a key has.
func AppendText(key []byte, text string) []byte {
	return append(AppendTextStart(key, text), 0, 0)
}

// TakeUint64 is the number with which a key begins, what is behind it, and whether there is one.
func TakeUint64(key []byte) (number uint64, rest []byte, there bool) {
	if len(key) < 8 {
		return 0, key, false
	}
	return binary.BigEndian.Uint64(key), key[8:], true
}

// TakeInt64 is the same for a signed number.
func TakeInt64(key []byte) (number int64, rest []byte, there bool) {
	bits, rest, there := TakeUint64(key)
	if !there {
		return 0, key, false
	}
	return int64(bits ^ top), rest, true
}

// TakeFloat64 is the same for a float.
func TakeFloat64(key []byte) (number float64, rest []byte, there bool) {
	bits, rest, there := TakeUint64(key)
	if !there {
		return 0, key, false
	}
	if bits&top != 0 {
		return math.Float64frombits(bits ^ top), rest, true
	}
	return math.Float64frombits(^bits), rest, true
}

// TakeText is the same for a text.
func TakeText(key []byte) (text string, rest []byte, there bool) {
	var read []byte
	for i := 0; i < len(key); i++ {
		if key[i] != 0 {
			read = append(read, key[i])
			continue
		}
		if i++; i == len(key) || key[i] != 0 && key[i] != 255 {
			return "", key, false
		}
		if key[i] == 0 {
			return string(read), key[i+1:], true
		}
		read = append(read, 0)
	}
	return "", key, false
}

// KeyBefore is the greatest key below this one, of at most 64 bytes, and whether there is one: without a last 0; else with a last byte that is one less,
// and filled up with 255.
func KeyBefore(key []byte) (before []byte, there bool) {
	if len(key) == 0 {
		return nil, false
	}
	end := len(key) - 1
	before = append([]byte{}, key[:end]...)
	if key[end] > 0 {
		before = append(before, key[end]-1)
		for len(before) < MaxLength {
			before = append(before, 255)
		}
	}
	return before, true
}

// KeyBehind is the least key that is above all that begin with these bytes, or nil.
func KeyBehind(prefix []byte) []byte {
	end := len(prefix)
	for end > 0 && prefix[end-1] == 255 {
		end--
	}
	if end == 0 {
		return nil
	}
	behind := append([]byte{}, prefix[:end]...)
	behind[end-1]++
	return behind
}

// KeyAfter is the least key above this one, or nil: with a 0 behind it, if there is room.
func KeyAfter(key []byte) []byte {
	if len(key) < MaxLength {
		return append(append([]byte{}, key...), 0)
	}
	return KeyBehind(key)
}
