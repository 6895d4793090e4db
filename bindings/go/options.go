package slh

import (
	"crypto"
	"crypto/rand"
	"fmt"
	"io"
)

// Options say how a signature is made or verified. Nil stands for the zero value: the pure form, the empty context, a
// fresh randomizer, one thread, and two computations that are compared. Verifying reads Context and Hash alone.
type Options struct {
	// Context has at most 255 bytes.
	Context []byte
	// Hash is 0 for the pure form. Else Sign and Verify take the digest of a message, in the pre-hash form. The calls
	// that take a hash function as an argument ignore it.
	Hash crypto.Hash
	// Deterministic asks for no randomizer (FIPS 205, section 9.2), which is more exposed to hardware faults.
	Deterministic bool
	// Workers is the number of goroutines that compute a signature, if it is above 1. No more start than the signature
	// has jobs. Under a key that Check finds invalid they return AnswersDisagree, while one goroutine returns a
	// signature that is not valid. A digest is always signed by one goroutine.
	Workers int
	// Once computes a signature one time, which takes half the time. By default it is computed two times, and several
	// workers do each job two times. If the results differ, the call returns ErrFault and no signature. Without this
	// comparison a fault of the hardware can give a signature from which others are forged.
	Once bool
	// Twice asks for two computations, even if Once is set.
	//
	// Deprecated: two computations are the default. Version 2.0 or later may remove it.
	Twice bool
	// Verify verifies a signature under the key's own public key before it is returned. If it is not valid, it is
	// overwritten, and the call returns ErrFault.
	Verify bool
}

// HashFunc returns Hash, so that Options and *Options are crypto.SignerOpts.
func (options Options) HashFunc() crypto.Hash {
	return options.Hash
}

// value returns the options, and the zero value for nil.
func (options *Options) value() Options {
	if options == nil {
		return Options{}
	}
	return *options
}

// runs returns how many times a signature is computed.
func (options Options) runs() int {
	if options.Once && !options.Twice {
		return 1
	}
	return 2
}

// all returns the options. A struct that embeds Options has this method, too.
func (options Options) all() Options {
	return options
}

// optionsOf returns the options in opts: all of Options, *Options and a struct that embeds one of them, and the hash
// function of any other type.
func optionsOf(opts crypto.SignerOpts) Options {
	switch it := opts.(type) {
	case nil:
		return Options{}
	case *Options:
		return it.value()
	case interface{ all() Options }:
		return it.all()
	default:
		return Options{Hash: opts.HashFunc()}
	}
}

// randomizer draws n bytes from a source, by default crypto/rand, or none for the deterministic variant.
func (options Options) randomizer(source io.Reader, n int) ([]byte, error) {
	if options.Deterministic {
		return nil, nil
	}
	return draw(source, n)
}

// draw reads bytes from a source, or from crypto/rand if that is nil. It wraps the error of a source that fails.
func draw(source io.Reader, count int) ([]byte, error) {
	if source == nil {
		source = rand.Reader
	}
	bytes := make([]byte, count)
	if _, err := io.ReadFull(source, bytes); err != nil {
		erase(bytes)
		return nil, fmt.Errorf("slh: RandomFailed: %w", err)
	}
	return bytes, nil
}
