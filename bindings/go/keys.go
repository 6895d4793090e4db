// Public and secret keys (FIPS 205, section 9.1): making, printing, using and erasing them.

package slh

import (
	"crypto"
	"crypto/sha256"
	"crypto/subtle"
	"encoding/base64"
	"fmt"
	"io"
	"runtime"
	"sync"
)

// A PublicKey has 2n bytes, PK.seed and PK.root. It is printed as its set and a fingerprint.
type PublicKey struct {
	set Set
	key hidden // a secret key's bytes, if a caller mistook them
}

// NewPublicKey returns the public key of these bytes. It is refused as NoSuchSet, and as BadLength unless there are 2n.
// It cannot tell a secret key of a 128 set from a public key of a 256 set, which has as many bytes. Key files can.
func NewPublicKey(set Set, bytes []byte) (*PublicKey, error) {
	lengths, err := set.Lengths()
	if err != nil {
		return nil, err
	}
	if len(bytes) != lengths.PublicKey {
		return nil, wrongLength(BadLength, "a public key of "+set.String(), lengths.PublicKey, len(bytes))
	}
	return &PublicKey{set, hide(copied(bytes))}, nil
}

// Set returns the parameter set.
func (public *PublicKey) Set() Set {
	return public.set
}

// Bytes returns a copy of the 2n bytes.
func (public *PublicKey) Bytes() []byte {
	return copied(public.key.bytes())
}

// Equal reports whether other is the same *PublicKey.
func (public *PublicKey) Equal(other crypto.PublicKey) bool {
	it, ok := other.(*PublicKey)
	return ok && it != nil && public.set == it.set && subtle.ConstantTimeCompare(public.key.bytes(), it.key.bytes()) == 1
}

// String returns the set and a fingerprint, the SHA-256 of the bytes: PublicKey(SLH-DSA-SHA2-128f SHA256:BASE64).
func (public PublicKey) String() string {
	sum := sha256.Sum256(public.key.bytes())
	return fmt.Sprintf("PublicKey(%s SHA256:%s)", public.set, base64.RawStdEncoding.EncodeToString(sum[:]))
}

// Format writes String for each verb of package fmt.
func (public PublicKey) Format(state fmt.State, verb rune) {
	fmt.Fprint(state, public.String())
}

// Verify returns nil if the signature of the message is valid, and else ErrInvalid (Algorithm 24). If options.Hash is
// not 0, the message is a digest, as for Sign. A signature of another length than the set's and a context of over 255
// bytes are invalid.
func (public *PublicKey) Verify(message, signature []byte, options *Options) error {
	return public.verify(pureOrDigest(public.set, options.value(), message), signature)
}

// HashVerify verifies a signature of the pre-hash form, with the message (Algorithm 25). It returns nil if it is valid,
// and else ErrInvalid. It is refused as NoSuchFunction.
func (public *PublicKey) HashVerify(hash crypto.Hash, message, signature []byte, options *Options) error {
	it := &form{preHash, public.set, hash, message, options.value().Context}
	return public.verify(it, signature)
}

// HashVerifyDigest verifies a signature of the pre-hash form, with the message's digest. It returns nil if it is valid,
// and else ErrInvalid. It is refused as NoSuchFunction and as BadDigestLength.
func (public *PublicKey) HashVerifyDigest(hash crypto.Hash, digest, signature []byte, options *Options) error {
	it := &form{byDigest, public.set, hash, digest, options.value().Context}
	return public.verify(it, signature)
}

// verify returns nil if a signature is valid.
func (public *PublicKey) verify(it *form, signature []byte) error {
	return it.explained(done(it.verify(public.key.bytes(), signature)))
}

// A SecretKey has 4n bytes, SK.seed, SK.prf, PK.seed and PK.root. It is a crypto.Signer. It is printed as its set, and
// encoders get ErrMarshal. All copies of a SecretKey share its bytes; go vet reports such copies. After Erase each
// call that needs the bytes returns ErrErased, or panics with it if it returns no error.
type SecretKey struct {
	_ noCopy
	redacted
	held *held
}

var _ crypto.Signer = (*SecretKey)(nil)

// held has the bytes of a secret key, which all copies of a SecretKey share.
type held struct {
	lock     sync.Mutex
	key      hidden
	isErased bool
}

// newSecret returns the secret key of these bytes, which have the set's length and are not copied. A key that is
// forgotten is erased when the garbage collector finds it.
func newSecret(set Set, bytes []byte) (*SecretKey, error) {
	lengths, err := set.Lengths()
	if err != nil {
		return nil, err
	}
	it := &held{key: hide(bytes)}
	runtime.SetFinalizer(it, (*held).destroy)
	return &SecretKey{redacted: redacted{set, lengths}, held: it}, nil
}

// taken returns a copy for one call, which has to be erased. So Erase need not wait for calls that run.
func (secret *SecretKey) taken() ([]byte, error) {
	if secret.held == nil {
		return nil, NoSuchSet // the zero value is the key of no set
	}
	secret.held.lock.Lock()
	defer secret.held.lock.Unlock()
	if secret.held.isErased {
		return nil, ErrErased
	}
	return copied(secret.held.key.bytes()), nil
}

// copied returns a copy of secret bytes, made byte by byte. On x86-64 append leaves the bytes in vector registers. If
// the runtime interrupts a goroutine, it writes these to the goroutine's stack, and the system to the handler's.
func copied(bytes []byte) []byte {
	it := make([]byte, len(bytes))
	subtle.ConstantTimeCopy(1, it, bytes)
	return it
}

// Erase overwrites the bytes with zeros, for copies of this SecretKey, too. Calls that run in other goroutines end
// under a copy of their own, which they then erase.
func (secret *SecretKey) Erase() {
	if secret.held != nil {
		secret.held.destroy()
	}
}

// Destroy is Erase.
//
// Deprecated: use Erase. Version 2.0 or later may remove it.
func (secret *SecretKey) Destroy() {
	secret.Erase()
}

// destroy overwrites the bytes.
func (it *held) destroy() {
	it.lock.Lock()
	defer it.lock.Unlock()
	erase(it.key.bytes())
	it.isErased = true
}

// NewSecretKey returns the secret key of these bytes. Call Check once on one that comes from elsewhere. It is refused
// as NoSuchSet, and as BadLength unless there are 4n.
func NewSecretKey(set Set, bytes []byte) (*SecretKey, error) {
	lengths, err := set.Lengths()
	if err != nil {
		return nil, err
	}
	if len(bytes) != lengths.SecretKey {
		return nil, wrongLength(BadLength, "a secret key of "+set.String(), lengths.SecretKey, len(bytes))
	}
	return newSecret(set, copied(bytes))
}

// Generate makes a key (Algorithm 21) and checks it. Its seeds come from the source, or from crypto/rand if that is
// nil. It is refused as Keygen is. If the source fails, the error is no Refusal, and wraps the source's.
func Generate(source io.Reader, set Set) (*SecretKey, error) {
	lengths, err := set.Lengths()
	if err != nil {
		return nil, err
	}
	seeds, err := draw(source, 3*lengths.N)
	if err != nil {
		return nil, err
	}
	defer erase(seeds)
	n := lengths.N
	return Keygen(set, seeds[:n], seeds[n:2*n], seeds[2*n:])
}

// Keygen makes the key of three seeds of n bytes each (Algorithm 18), and checks it as Check does. The seeds are as
// secret as the key. It is refused as NoSuchSet and BadSeedLength. It returns ErrFault if the check finds another root.
func Keygen(set Set, skSeed, skPrf, pkSeed []byte) (*SecretKey, error) {
	lengths, err := set.Lengths()
	if err != nil {
		return nil, err
	}
	for _, seed := range [][]byte{skSeed, skPrf, pkSeed} {
		if len(seed) != lengths.N {
			return nil, wrongLength(BadSeedLength, "a seed of "+set.String(), lengths.N, len(seed))
		}
	}
	bytes := make([]byte, lengths.SecretKey)
	if err := makeKey(set, skSeed, skPrf, pkSeed, bytes); err != nil {
		return nil, err
	}
	secret, err := newSecret(set, bytes)
	if err != nil {
		return nil, err
	}
	if err := secret.Check(); err == ErrInvalid {
		secret.Erase()
		return nil, ErrFault
	} else if err != nil {
		secret.Erase()
		return nil, err
	}
	return secret, nil
}

// makeKey is keyOf. A test puts one with faults in its place.
var makeKey = keyOf

// keyOf writes the bytes of the key of three seeds.
func keyOf(set Set, skSeed, skPrf, pkSeed, bytes []byte) error {
	return done(uninterrupted(func() uint32 { return set.keygen(skSeed, skPrf, pkSeed, bytes) }))
}

// Set returns the parameter set.
func (secret *SecretKey) Set() Set {
	return secret.set
}

// Bytes returns a copy of the 4n bytes, which is the caller's to erase. It panics with ErrErased.
func (secret *SecretKey) Bytes() []byte {
	key, err := secret.taken()
	if err != nil {
		panic(err)
	}
	return key
}

// Equal reports whether other is the same *SecretKey. One that was destroyed is none. The time that this takes does not
// depend on the bytes.
func (secret *SecretKey) Equal(other crypto.PrivateKey) bool {
	it, ok := other.(*SecretKey)
	if !ok || it == nil || secret.set != it.set {
		return false
	}
	one, err := secret.taken()
	defer erase(one)
	another, otherErr := it.taken()
	defer erase(another)
	return err == nil && otherErr == nil && subtle.ConstantTimeCompare(one, another) == 1
}

// Public returns the *PublicKey, for crypto.Signer. It panics with ErrErased.
func (secret *SecretKey) Public() crypto.PublicKey {
	return secret.PublicKey()
}

// PublicKey returns the public key, the last 2n bytes. It panics with ErrErased.
func (secret *SecretKey) PublicKey() *PublicKey {
	public := make([]byte, secret.lengths.PublicKey)
	err := secret.use(func(key []byte) error {
		return done(uninterrupted(func() uint32 { return secret.set.public(key, public) }))
	})
	if err != nil {
		panic(err) // All lengths are those of the set.
	}
	return &PublicKey{secret.set, hide(public)}
}

// Check returns nil if PK.root is the root that the seeds give, and else ErrInvalid. This takes as long as Keygen.
func (secret *SecretKey) Check() error {
	return secret.use(func(key []byte) error {
		return done(uninterrupted(func() uint32 { return secret.set.check(key) }))
	})
}

// Sign signs a message in the pure form (Algorithm 22) if opts are nil or opts.HashFunc() is 0. Else the message is a
// digest under that hash function, and is signed in the pre-hash form, as by HashSignDigest. The options are those of
// Options, *Options or a struct that embeds one, or the default if opts are of another type. The randomizer comes from
// the source, or from crypto/rand if that is nil. It is refused as ContextTooLong if the context has over 255 bytes, as
// NoSuchFunction and as BadDigestLength, and by Workers above 1 as AnswersDisagree under a key that Check finds
// invalid. It returns ErrFault if two computations differ or options.Verify finds an invalid signature. If the source
// fails, the error is no Refusal, and wraps the source's.
func (secret *SecretKey) Sign(source io.Reader, message []byte, opts crypto.SignerOpts) ([]byte, error) {
	options := optionsOf(opts)
	return secret.sign(source, options, pureOrDigest(secret.set, options, message))
}

// HashSign signs a message in the pre-hash form (Algorithm 23), with a digest that the library computes. A hash
// function that is weaker than the set makes a weaker signature. It is refused as Sign is.
func (secret *SecretKey) HashSign(
	source io.Reader, hash crypto.Hash, message []byte, options *Options,
) ([]byte, error) {
	chosen := options.value()
	return secret.sign(source, chosen, &form{preHash, secret.set, hash, message, chosen.Context})
}

// HashSignDigest signs a message in the pre-hash form (Algorithm 23) by its digest, for messages that are read in
// pieces. It is refused as Sign is.
func (secret *SecretKey) HashSignDigest(
	source io.Reader, hash crypto.Hash, digest []byte, options *Options,
) ([]byte, error) {
	chosen := options.value()
	return secret.sign(source, chosen, &form{byDigest, secret.set, hash, digest, chosen.Context})
}

// use runs a call over a copy of the bytes, which is erased afterwards.
func (secret *SecretKey) use(call func(key []byte) error) error {
	key, err := secret.taken()
	if err != nil {
		return err
	}
	defer erase(key)
	return call(key)
}

// sign returns a signature under a randomizer of the source.
func (secret *SecretKey) sign(source io.Reader, options Options, it *form) ([]byte, error) {
	randomizer, err := options.randomizer(source, secret.lengths.N)
	if err != nil {
		return nil, err
	}
	var signature []byte
	err = secret.use(func(key []byte) (err error) {
		signature, err = makeSignature(secret, options, it, key, randomizer)
		if err == nil && options.Verify {
			err = secret.verified(it, key, signature)
		}
		return err
	})
	if err != nil {
		return nil, it.explained(err)
	}
	return signature, nil
}

// makeSignature is made. A test puts one with faults in its place.
var makeSignature = (*SecretKey).made

// made returns a signature by jobs, by two computations, or by one.
func (secret *SecretKey) made(options Options, it *form, key, randomizer []byte) ([]byte, error) {
	if options.Workers > 1 && it.kind != byDigest {
		begin := func(start []byte) uint32 { return it.start(key, randomizer, start) }
		return secret.signJobs(key, options, begin)
	}
	if options.runs() == 1 {
		return secret.written(func(sig []byte) uint32 { return it.sign(key, randomizer, sig) })
	}
	scratch := newScratch(2 * secret.lengths.Signature)
	return secret.written(func(sig []byte) uint32 { return it.signTwice(key, randomizer, scratch, sig) })
}

// newScratch returns memory for two signatures. A test puts memory that fails in its place.
var newScratch = func(count int) []byte { return make([]byte, count) }

// verified returns nil if a signature is valid under the key's own public key. Else it overwrites the signature, which
// may help to forge others, and returns ErrFault.
func (secret *SecretKey) verified(it *form, key, signature []byte) error {
	public := key[len(key)-secret.lengths.PublicKey:]
	if it.verify(public, signature) == success {
		return nil
	}
	erase(signature)
	return ErrFault
}

// A writing is a call that writes a signature or a start.
type writing func(out []byte) uint32

// written returns the signature that a call writes.
func (secret *SecretKey) written(call writing) ([]byte, error) {
	sig := make([]byte, secret.lengths.Signature)
	if err := done(uninterrupted(func() uint32 { return call(sig) })); err != nil {
		return nil, err
	}
	return sig, nil
}
