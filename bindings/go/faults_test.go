//go:build !portable

package slh

import (
	"runtime"
	"sync"
	"sync/atomic"
	"testing"
	"unsafe"
)

// The portable C computes in memory of its own, where no other thread reaches a signature.

// TestFaultsOfMemoryAreFound flips one bit of a signature in memory while its second computation runs.
func TestFaultsOfMemoryAreFound(t *testing.T) {
	for name, call := range callsOf(generate(t), nil) {
		for _, at := range []int{0, 8000, 17080} {
			var signature, scratch []byte
			var err error
			for tries := 0; tries < 2000 && err == nil; tries++ { // the other thread may come too late
				signature, scratch, err = withFlip(call, at)
			}
			if err != ErrFault || signature != nil || len(scratch) != 2*17088 || !isZeros(scratch) {
				t.Error(name, at, err, len(scratch), isZeros(scratch))
			}
		}
	}
}

// withFlip makes a call, and flips one bit of the first signature in its scratch once that has its last 8 bytes.
func withFlip(call func() ([]byte, error), place int) (signature, scratch []byte, err error) {
	var ended atomic.Bool
	var flipping sync.WaitGroup
	defer func(before func(int) []byte) { newScratch = before }(newScratch)
	newScratch = func(count int) []byte {
		scratch = make([]byte, count)
		flipping.Add(1)
		go func() {
			defer flipping.Done()
			last := (*uint64)(unsafe.Pointer(&scratch[count/2-8]))
			for atomic.LoadUint64(last) == 0 && !ended.Load() {
				runtime.Gosched()
			}
			if !ended.Load() {
				scratch[place] ^= 1
			}
		}()
		return scratch
	}
	signature, err = call()
	ended.Store(true)
	flipping.Wait()
	return signature, scratch, err
}
