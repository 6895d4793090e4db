// Package slh is SLH-DSA (FIPS 205) with SHA-2: keys, signing and verifying, over the library libslh.
//
//	secret, err := slh.Generate(nil, slh.SHA2_128f)
//	public := secret.PublicKey()
//	err = secret.Check()
//	signature, err := secret.Sign(nil, message, nil)
//	err = public.Verify(message, signature, nil)
//
// The first argument of Generate and Sign is the source of random bytes, and nil stands for crypto/rand. The last one
// of Sign and Verify are Options, and nil stands for Options{}.
//
// docs/LIBRARY.md of libslh's repository describes each call and its proof. A call that is refused returns a Refusal,
// with libslh's number and name, or an error that wraps one. Verify and Check return nil if the signature or the key is
// valid, and ErrInvalid if it is not.
//
// Each signature has a fresh randomizer, from crypto/rand unless another source is given or Options.Deterministic asks
// for none. SecretKey.Erase overwrites a secret key. A call overwrites its own copies of it before it returns. Slices
// that a caller hands in, and those of SecretKey.Bytes and MarshalKeyFile, are the caller's.
//
// A secret key is printed as its set, a public key as its set and a fingerprint. Encoders get ErrMarshal for a secret
// key. Reflection finds the bytes of neither, not even in a struct that holds the key.
//
// The compiler and the linker have to find libslh.a: CGO_CFLAGS=-IPREFIX/include and CGO_LDFLAGS=-LPREFIX/lib, where
// PREFIX is the absolute path of the folder that tools/library.sh has installed into. With the tag portable the
// compiler takes the portable C of tools/library.sh --target portable: CGO_CFLAGS="-IPREFIX/include -IPREFIX/src".
package slh

import (
	"errors"
	"fmt"
)

// A Set is a parameter set (FIPS 205, section 11, Table 2), by libslh's number.
type Set uint32

// The parameter sets.
const (
	SHA2_128s Set = 1
	SHA2_128f Set = 2
	SHA2_192s Set = 3
	SHA2_192f Set = 4
	SHA2_256s Set = 5
	SHA2_256f Set = 6
)

var setNames = map[Set]string{
	SHA2_128s: "SLH-DSA-SHA2-128s",
	SHA2_128f: "SLH-DSA-SHA2-128f",
	SHA2_192s: "SLH-DSA-SHA2-192s",
	SHA2_192f: "SLH-DSA-SHA2-192f",
	SHA2_256s: "SLH-DSA-SHA2-256s",
	SHA2_256f: "SLH-DSA-SHA2-256f",
}

// ParseSet returns the set of a name, as SLH-DSA-SHA2-128f. It is refused as UnknownSet.
func ParseSet(name string) (Set, error) {
	for set, known := range setNames {
		if known == name {
			return set, nil
		}
	}
	return 0, fmt.Errorf("%w: %q", UnknownSet, name)
}

// String returns the name of the set, as SLH-DSA-SHA2-128f.
func (set Set) String() string {
	if name, ok := setNames[set]; ok {
		return name
	}
	return fmt.Sprintf("Set(%d)", uint32(set))
}

// Lengths are lengths in bytes. N is that of a seed and of a randomizer.
type Lengths struct {
	PublicKey, SecretKey, Signature, N int
}

// Lengths returns the lengths of the set's keys and signatures. It is refused as NoSuchSet.
func (set Set) Lengths() (Lengths, error) {
	it, result := set.lengths()
	return it, done(result)
}

// SelfTest tests the set on this machine before it is used, as when a service starts. It makes a known key and signs a
// known message. PK.root and the SHA-256 of the signature have to be those that OpenSSL gave. The signature has to be
// valid, and invalid for another message. The test takes as long as to make a key, to sign once and to verify two times.
// It returns ErrSelfTestFailed if an answer is not the known one. It is refused as NoSuchSet.
//
// The test shows nothing about other sets, keys and messages, the pre-hash forms, random bytes and later faults. It does
// not replace a hash of the program's file.
func (set Set) SelfTest() error {
	lengths, err := set.Lengths()
	if err != nil {
		return err
	}
	scratch := make([]byte, lengths.Signature)
	return done(set.selfTest(scratch))
}

// ErrInvalid says that a signature is not valid, or that the root of a secret key is not the one that its seeds give.
var ErrInvalid = errors.New("slh: invalid")

// ErrErased says that a secret key was erased.
var ErrErased = errors.New("slh: the secret key was erased")

// ErrDestroyed is ErrErased.
//
// Deprecated: use ErrErased. Version 2.0 or later may remove it.
var ErrDestroyed = ErrErased

// ErrFault says that two computations of a signature differ, that the signature is not valid (Options.Verify), or that
// a new key is not. What was made is overwritten. Memory or the processor failed, or Check finds the key invalid.
var ErrFault = errors.New("slh: 38 Fault: two computations differ, or the signature or the new key is not valid")

// ErrSelfTestFailed says that an answer of Set.SelfTest is not the known one: the library on this machine may not be
// used.
var ErrSelfTestFailed = errors.New("slh: 40 SelfTestFailed: an answer of the self-test is not the known one")

// A Refusal is the number of the reason why a call was refused (docs/FORMATS.md, "Refusals"): use
// errors.Is(err, slh.ContextTooLong). Errors of lengths wrap it, and say which length was expected and which was given.
type Refusal uint32

// The refusals that calls of this package return.
const (
	ContextTooLong  Refusal = 2
	BadLength       Refusal = 3
	NoSuchSet       Refusal = 8
	NoSuchFunction  Refusal = 9
	BadSeedLength   Refusal = 10
	NotAKeyFile     Refusal = 11 // also a key file of the other kind
	UnknownSet      Refusal = 12
	BadHex          Refusal = 13
	BadKeyLength    Refusal = 14
	TrailingBytes   Refusal = 15
	BadDigestLength Refusal = 16
	AnswersDisagree Refusal = 25
)

// Name returns the name, as ContextTooLong.
func (refusal Refusal) Name() string {
	return refusal.nameInLibrary()
}

// Error returns the number and the name.
func (refusal Refusal) Error() string {
	return fmt.Sprintf("slh: %d %s", uint32(refusal), refusal.Name())
}

// wrongLength returns a refusal of something's length, with the expected and the given one.
func wrongLength(refusal Refusal, what string, expected, given int) error {
	return fmt.Errorf("%w: %s has %d bytes, not %d", refusal, what, expected, given)
}

// Version returns the version of libslh: 1,000,000 times its first number, 1,000 times its second, and its third.
func Version() uint32 {
	return version()
}

// Results of calls that are no refusals, of which the last is that of a build without libslh; and the most bytes of a
// context and of a secret key.
const (
	success        = 0
	invalid        = 30
	fault          = 38
	selfTestFailed = 40
	withoutCgo     = ^uint32(0)
	maxContext     = 255
	maxSecretKey   = 128
)

var errWithoutCgo = errors.New("slh: this program was built without cgo, and so without libslh: set CGO_ENABLED=1, " +
	"and install a C compiler")

// done returns the result of a call as an error, which is nil if the call is done.
func done(result uint32) error {
	switch result {
	case success:
		return nil
	case invalid:
		return ErrInvalid
	case fault:
		return ErrFault
	case selfTestFailed:
		return ErrSelfTestFailed
	case withoutCgo:
		return errWithoutCgo
	default:
		return Refusal(result)
	}
}
