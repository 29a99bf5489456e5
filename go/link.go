package bwtree

// #cgo pkg-config: bwtree
import "C"
