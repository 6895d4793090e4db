// The forms of signing of FIPS 205, section 10.2.

package slh

import (
	"crypto"
	"fmt"
)

// A kind is a form of FIPS 205, section 10.2, and how its message is given.
type kind int

const (
	pure     kind = iota // the message
	preHash              // the message, of which the library computes the digest
	byDigest             // the digest of the message
)

// A form is a message to sign or verify, by a set and under a context. The message of byDigest is the digest.
type form struct {
	kind             kind
	set              Set
	hash             crypto.Hash // of the pre-hash forms
	message, context []byte
}

// functions has libslh's number for each hash function that FIPS 205 allows and the library has.
var functions = map[crypto.Hash]uint32{
	crypto.SHA224:     number224,
	crypto.SHA256:     number256,
	crypto.SHA384:     number384,
	crypto.SHA512:     number512,
	crypto.SHA512_224: number512_224,
	crypto.SHA512_256: number512_256,
}

const (
	number224 = iota + 1
	number256
	number384
	number512
	number512_224
	number512_256
)

// pureOrDigest returns the form of Sign and Verify, which take a digest if the options name a hash function.
func pureOrDigest(set Set, options Options, message []byte) *form {
	if options.Hash != 0 {
		return &form{byDigest, set, options.Hash, message, options.Context}
	}
	return &form{pure, set, 0, message, options.Context}
}

// function returns the hash function's number, and 0, which is no function's, for all others.
func (it *form) function() uint32 {
	return functions[it.hash]
}

// explained adds the expected and the given length to a refusal of one.
func (it *form) explained(err error) error {
	switch err {
	case BadDigestLength:
		return wrongLength(BadDigestLength, "a digest of "+it.hash.String(), it.hash.Size(), len(it.message))
	case ContextTooLong:
		return fmt.Errorf("%w: a context has at most %d bytes, not %d", err, maxContext, len(it.context))
	default:
		return err
	}
}
