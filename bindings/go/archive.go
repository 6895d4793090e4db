//go:build !portable

package slh

// #cgo LDFLAGS: -l:libslh.a
import "C"
