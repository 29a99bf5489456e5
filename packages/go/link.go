package bwtree

// #cgo LDFLAGS: ${SRCDIR}/libbwtree.a -lpthread
import "C"
