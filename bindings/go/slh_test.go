// Tests of keys, signatures and verdicts, by the vectors of other implementations.

package slh

import (
	"bytes"
	"crypto"
	"crypto/rand"
	"crypto/sha256"
	_ "crypto/sha512"
	"encoding/base64"
	"encoding/gob"
	"encoding/hex"
	"encoding/json"
	"encoding/xml"
	"errors"
	"fmt"
	"io"
	"math"
	"os"
	"path/filepath"
	"reflect"
	"runtime"
	"strings"
	"sync"
	"testing"
	"testing/iotest"
	"time"
)

const fast = SHA2_128f

// hexBytes are bytes that stand as hexadecimal digits in JSON.
type hexBytes []byte

func (it *hexBytes) UnmarshalText(text []byte) (err error) {
	*it, err = hex.DecodeString(string(text))
	return err
}

// A vector is a test of a vector file (docs/FORMATS.md): what another implementation made or judged.
type vector struct {
	Kind, Set, Form          string
	SkSeed, SkPrf, PkSeed    hexBytes
	Sk, Pk                   hexBytes
	Message, Context, Random hexBytes
	Signature                hexBytes
	Valid                    *bool
}

// vectors returns the tests of a kind, but for those of the internal form, which this package does not have.
func vectors(t *testing.T, kind string) []vector {
	t.Helper()
	paths, err := filepath.Glob("../../tests/vectors/slh-dsa-*.json")
	if err != nil || len(paths) != 6 {
		t.Fatal("there are no six vector files", paths, err)
	}
	var found []vector
	for _, path := range paths {
		text, err := os.ReadFile(path)
		if err != nil {
			t.Fatal(err)
		}
		var tests []vector
		if err := json.Unmarshal(text, &tests); err != nil {
			t.Fatal(path, err)
		}
		for _, test := range tests {
			if test.Kind == kind && test.Form != "internal" {
				found = append(found, test)
			}
		}
	}
	if len(found) < 13 {
		t.Fatalf("there are %d tests of %s", len(found), kind)
	}
	return found
}

func (test vector) set(t *testing.T) Set {
	t.Helper()
	for set, name := range setNames {
		if name == test.Set {
			return set
		}
	}
	t.Fatal("no set", test.Set)
	return 0
}

// hash returns the hash function of a pre-hash form, and 0 for the pure form.
func (test vector) hash(t *testing.T) crypto.Hash {
	t.Helper()
	hashes := map[string]crypto.Hash{
		"pure": 0, "SHA2-224": crypto.SHA224, "SHA2-256": crypto.SHA256, "SHA2-384": crypto.SHA384,
		"SHA2-512": crypto.SHA512, "SHA2-512/224": crypto.SHA512_224, "SHA2-512/256": crypto.SHA512_256,
	}
	hash, ok := hashes[test.Form]
	if !ok {
		t.Fatal("no form", test.Form)
	}
	return hash
}

func digest(hash crypto.Hash, message []byte) []byte {
	it := hash.New()
	it.Write(message)
	return it.Sum(nil)
}

func TestKeygenVectors(t *testing.T) {
	for _, test := range vectors(t, "keygen") {
		secret, err := Keygen(test.set(t), test.SkSeed, test.SkPrf, test.PkSeed)
		if err != nil {
			t.Fatal(test.Set, err)
		}
		if !bytes.Equal(secret.Bytes(), test.Sk) || !bytes.Equal(secret.PublicKey().Bytes(), test.Pk) {
			t.Error(test.Set, "gives another key")
		}
		if err := secret.Check(); err != nil {
			t.Error(test.Set, err)
		}
	}
}

// TestSignVectors runs all sign tests of the sets whose names end in f, and the first one of 128s: the others are slow.
func TestSignVectors(t *testing.T) {
	forms, slow := map[string]bool{}, 0
	for _, test := range vectors(t, "sign") {
		if strings.HasSuffix(test.Set, "s") {
			if slow++; slow > 1 {
				continue
			}
		}
		forms[test.Form] = true
		for call, signature := range signatures(t, test) {
			if !bytes.Equal(signature, test.Signature) {
				t.Error(test.Set, test.Form, call, "signs otherwise")
			}
		}
	}
	if len(forms) != 7 {
		t.Error("not all forms were signed in", forms)
	}
}

// signatures returns the signatures of each call that signs in the test's form, by one goroutine, by two, and once.
func signatures(t *testing.T, test vector) map[string][]byte {
	t.Helper()
	secret, err := NewSecretKey(test.set(t), test.Sk)
	if err != nil {
		t.Fatal(err)
	}
	made := map[string][]byte{}
	for _, options := range []Options{{Workers: 1, Verify: true}, {Workers: 2}, {Once: true, Verify: true}} {
		options.Context, options.Deterministic = test.Context, len(test.Random) == 0
		for name, call := range test.calls(t, secret, options) {
			name = fmt.Sprintf("%s, %d workers, once %v", name, options.Workers, options.Once)
			if made[name], err = call(); err != nil {
				t.Error(test.Set, test.Form, name, err)
			}
		}
	}
	return made
}

// calls returns each call that signs in the test's form.
func (test vector) calls(t *testing.T, secret *SecretKey, options Options) map[string]func() ([]byte, error) {
	t.Helper()
	hash, random := test.hash(t), func() io.Reader { return bytes.NewReader(test.Random) }
	if hash == 0 {
		return map[string]func() ([]byte, error){
			"Sign": func() ([]byte, error) { return secret.Sign(random(), test.Message, options) },
		}
	}
	hashed, ofDigest := digest(hash, test.Message), options
	ofDigest.Hash = hash
	return map[string]func() ([]byte, error){
		"HashSign":         func() ([]byte, error) { return secret.HashSign(random(), hash, test.Message, &options) },
		"HashSignDigest":   func() ([]byte, error) { return secret.HashSignDigest(random(), hash, hashed, &options) },
		"Sign of a digest": func() ([]byte, error) { return crypto.Signer(secret).Sign(random(), hashed, &ofDigest) },
	}
}

func TestVerifyVectors(t *testing.T) {
	counts := map[bool]int{}
	for number, test := range vectors(t, "verify") {
		public, err := NewPublicKey(test.set(t), test.Pk)
		if err != nil || test.Valid == nil {
			t.Fatal(number, err, test.Valid)
		}
		options := &Options{Context: test.Context}
		verdicts := []error{}
		if hash := test.hash(t); hash == 0 {
			verdicts = append(verdicts, public.Verify(test.Message, test.Signature, options))
		} else {
			hashed := digest(hash, test.Message)
			verdicts = append(verdicts, public.HashVerify(hash, test.Message, test.Signature, options),
				public.HashVerifyDigest(hash, hashed, test.Signature, options),
				public.Verify(hashed, test.Signature, &Options{Context: test.Context, Hash: hash}))
		}
		for _, verdict := range verdicts {
			if *test.Valid != (verdict == nil) || !*test.Valid != errors.Is(verdict, ErrInvalid) {
				t.Error(test.Set, test.Form, number, "is judged", verdict)
			}
		}
		counts[*test.Valid]++
	}
	if counts[true] < 6 || counts[false] < 6 {
		t.Error("too few were judged", counts)
	}
}

func generate(t *testing.T) *SecretKey {
	t.Helper()
	secret, err := Generate(nil, fast)
	if err != nil {
		t.Fatal(err)
	}
	return secret
}

func sign(t *testing.T, secret *SecretKey, message string, options *Options) []byte {
	t.Helper()
	signature, err := secret.Sign(nil, []byte(message), options)
	if err != nil {
		t.Fatal(err)
	}
	return signature
}

// wrongRoot returns the key with one bit changed in PK.root.
func wrongRoot(t *testing.T, secret *SecretKey) *SecretKey {
	t.Helper()
	changed := secret.Bytes()
	changed[len(changed)-1] ^= 1
	wrong, err := NewSecretKey(secret.Set(), changed)
	if err != nil {
		t.Fatal(err)
	}
	return wrong
}

// expectRefusal fails unless an error is this refusal, with this number and name.
func expectRefusal(t *testing.T, err error, refusal Refusal, number uint32, name string) {
	t.Helper()
	var found Refusal
	if !errors.As(err, &found) || found != refusal || uint32(found) != number || found.Name() != name {
		t.Errorf("%v, and not %d %s", err, number, name)
	}
	wanted := fmt.Sprintf("slh: %d %s", number, name)
	if !errors.Is(err, refusal) || err.Error() != wanted && !strings.HasPrefix(err.Error(), wanted+": ") {
		t.Errorf("%v, and not %s", err, wanted)
	}
}

func TestGeneratedKeysDiffer(t *testing.T) {
	one, other := generate(t), generate(t)
	if err := one.Check(); err != nil {
		t.Error(err)
	}
	seeds := map[string]bool{}
	for _, secret := range []*SecretKey{one, other} {
		for at := 0; at < 48; at += 16 {
			seeds[string(secret.Bytes()[at:at+16])] = true
		}
	}
	if len(seeds) != 6 || one.Equal(other) || !one.Equal(one) || one.PublicKey().Equal(other.Public()) {
		t.Error("two keys have the same seeds")
	}
}

func TestRandomizersAreDrawn(t *testing.T) {
	secret := generate(t)
	deterministic := &Options{Deterministic: true}
	made := map[string]bool{}
	for _, options := range []*Options{nil, nil, {}, deterministic, deterministic} {
		signature := sign(t, secret, "letter", options)
		made[string(signature)] = true
		if err := secret.PublicKey().Verify([]byte("letter"), signature, nil); err != nil {
			t.Error(err)
		}
	}
	if len(made) != 4 {
		t.Errorf("%d of 5 signatures differ, and not 4", len(made))
	}
	if _, err := secret.Sign(bytes.NewReader(make([]byte, 15)), []byte("letter"), nil); err == nil {
		t.Error("a source of 15 bytes was taken")
	}
}

func TestContexts(t *testing.T) {
	secret := generate(t)
	longest, longer := make([]byte, 255), make([]byte, 256)
	signature := sign(t, secret, "letter", &Options{Context: longest})
	if err := secret.PublicKey().Verify([]byte("letter"), signature, &Options{Context: longest}); err != nil {
		t.Error(err)
	}
	for _, context := range [][]byte{nil, longest[1:], longer} {
		err := secret.PublicKey().Verify([]byte("letter"), signature, &Options{Context: context})
		if !errors.Is(err, ErrInvalid) {
			t.Error(len(context), err)
		}
	}
	for _, workers := range []int{1, 2} {
		options := &Options{Context: longer, Workers: workers}
		_, err := secret.Sign(nil, []byte("letter"), options)
		expectRefusal(t, err, ContextTooLong, 2, "ContextTooLong")
		_, err = secret.HashSign(nil, crypto.SHA256, []byte("letter"), options)
		expectRefusal(t, err, ContextTooLong, 2, "ContextTooLong")
		_, err = secret.HashSignDigest(nil, crypto.SHA256, make([]byte, 32), options)
		expectRefusal(t, err, ContextTooLong, 2, "ContextTooLong")
	}
}

func TestDamageIsInvalid(t *testing.T) {
	secret := generate(t)
	public, signature := secret.PublicKey(), sign(t, secret, "letter", nil)
	if err := public.Verify([]byte("letter"), signature, nil); err != nil {
		t.Error(err)
	}
	expectInvalid := func(what string, err error) {
		if !errors.Is(err, ErrInvalid) {
			t.Error(what, err)
		}
	}
	for _, at := range []int{0, 16, len(signature) - 1} {
		damaged := append([]byte(nil), signature...)
		damaged[at] ^= 1
		expectInvalid("one bit", public.Verify([]byte("letter"), damaged, nil))
	}
	expectInvalid("no bytes", public.Verify([]byte("letter"), nil, nil))
	expectInvalid("one byte less", public.Verify([]byte("letter"), signature[1:], nil))
	expectInvalid("one byte more", public.Verify([]byte("letter"), append(signature, 0), nil))
	expectInvalid("another message", public.Verify([]byte("Letter"), signature, nil))
	expectInvalid("another form", public.HashVerify(crypto.SHA256, []byte("letter"), signature, nil))
	expectInvalid("another root", wrongRoot(t, secret).Check())
}

func TestRefusals(t *testing.T) {
	_, err := Generate(nil, 7)
	expectRefusal(t, err, NoSuchSet, 8, "NoSuchSet")
	_, err = NewSecretKey(fast, make([]byte, 63))
	expectRefusal(t, err, BadLength, 3, "BadLength")
	_, err = NewPublicKey(fast, make([]byte, 33))
	expectRefusal(t, err, BadLength, 3, "BadLength")
	_, err = Keygen(fast, make([]byte, 16), make([]byte, 16), make([]byte, 15))
	expectRefusal(t, err, BadSeedLength, 10, "BadSeedLength")
	secret := generate(t)
	for _, hash := range []crypto.Hash{0, crypto.MD5, crypto.SHA3_256, 99} {
		_, err = secret.HashSign(nil, hash, nil, nil)
		expectRefusal(t, err, NoSuchFunction, 9, "NoSuchFunction")
		_, err = secret.HashSignDigest(nil, hash, nil, &Options{Once: true})
		expectRefusal(t, err, NoSuchFunction, 9, "NoSuchFunction")
	}
	_, err = secret.Sign(nil, make([]byte, 32), crypto.SHA3_256)
	expectRefusal(t, err, NoSuchFunction, 9, "NoSuchFunction")
	_, err = secret.Sign(nil, make([]byte, 31), crypto.SHA256)
	expectRefusal(t, err, BadDigestLength, 16, "BadDigestLength")
	err = secret.PublicKey().HashVerifyDigest(crypto.SHA256, make([]byte, 31), nil, nil)
	expectRefusal(t, err, BadDigestLength, 16, "BadDigestLength")
}

// TestLengthsAreTold has each error of a length say which one was expected and which was given.
func TestLengthsAreTold(t *testing.T) {
	secret := generate(t)
	context := &Options{Context: make([]byte, 256)}
	_, public := NewPublicKey(SHA2_256s, make([]byte, 63))
	_, private := NewSecretKey(SHA2_192f, make([]byte, 64))
	_, seed := Keygen(fast, make([]byte, 16), make([]byte, 17), nil)
	_, digest := secret.HashSignDigest(nil, crypto.SHA512_256, make([]byte, 64), nil)
	_, signed := secret.Sign(nil, nil, context)
	_, once := secret.HashSign(nil, crypto.SHA256, nil, &Options{Context: make([]byte, 300), Once: true})
	_, both := secret.HashSignDigest(nil, crypto.SHA256, nil, context)
	for wanted, err := range map[string]error{
		"slh: 3 BadLength: a public key of SLH-DSA-SHA2-256s has 64 bytes, not 63": public,
		"slh: 3 BadLength: a secret key of SLH-DSA-SHA2-192f has 96 bytes, not 64": private,
		"slh: 10 BadSeedLength: a seed of SLH-DSA-SHA2-128f has 16 bytes, not 17":  seed,
		"slh: 16 BadDigestLength: a digest of SHA-512/256 has 32 bytes, not 64":    digest,
		"slh: 2 ContextTooLong: a context has at most 255 bytes, not 256":          signed,
		"slh: 2 ContextTooLong: a context has at most 255 bytes, not 300":          once,
		"slh: 16 BadDigestLength: a digest of SHA-256 has 32 bytes, not 0":         both,
	} {
		if err == nil || err.Error() != wanted {
			t.Error(err, "and not", wanted)
		}
	}
}

func TestSetsHaveNames(t *testing.T) {
	for set, name := range setNames {
		if found, err := ParseSet(name); found != set || err != nil || set.String() != name {
			t.Error(found, err)
		}
	}
	for _, name := range []string{"", "128f", "SLH-DSA-SHA2-128F", "SLH-DSA-SHA2-128f "} {
		_, err := ParseSet(name)
		expectRefusal(t, err, UnknownSet, 12, "UnknownSet")
	}
}

// tests/test_go.py runs the self-test over a library with another answer.
func TestEachSetPassesItsSelfTest(t *testing.T) {
	for set := range setNames {
		if err := set.SelfTest(); err != nil {
			t.Error(set, err)
		}
	}
	for _, set := range []Set{0, 7} {
		expectRefusal(t, set.SelfTest(), NoSuchSet, 8, "NoSuchSet")
	}
}

func TestAWrongRootSignsNothingValid(t *testing.T) {
	wrong := wrongRoot(t, generate(t))
	_, err := wrong.Sign(nil, []byte("letter"), &Options{Workers: 2})
	expectRefusal(t, err, AnswersDisagree, 25, "AnswersDisagree")
	_, err = wrong.HashSign(nil, crypto.SHA256, []byte("letter"), &Options{Workers: 2})
	expectRefusal(t, err, AnswersDisagree, 25, "AnswersDisagree")
	signature := sign(t, wrong, "letter", nil)
	if err := wrong.PublicKey().Verify([]byte("letter"), signature, nil); !errors.Is(err, ErrInvalid) {
		t.Error(err)
	}
}

// isZeros reports whether there are bytes, and all are 0.
func isZeros(text []byte) bool {
	return len(text) > 0 && bytes.Equal(text, make([]byte, len(text)))
}

// panicOf returns what a call panics with.
func panicOf(call func()) (found interface{}) {
	defer func() { found = recover() }()
	call()
	return nil
}

// errorsOf returns the errors of each call that needs a key's bytes.
func errorsOf(it *SecretKey) []error {
	_, text := it.MarshalKeyFile()
	errs, message := []error{it.Check(), text}, make([]byte, 32)
	for _, options := range []*Options{nil, {Workers: 2}, {Once: true}, {Verify: true}, {Hash: crypto.SHA256}} {
		_, signed := it.Sign(nil, message, options)
		_, hashed := it.HashSign(nil, crypto.SHA256, message, options)
		_, digested := it.HashSignDigest(nil, crypto.SHA256, message, options)
		errs = append(errs, signed, hashed, digested)
	}
	return errs
}

func TestADestroyedKeyDoesNothing(t *testing.T) {
	kept := generate(t)
	given := kept.Bytes()
	secret, err := NewSecretKey(fast, given)
	if err != nil || !secret.Equal(kept) {
		t.Fatal("another key", err)
	}
	var shared SecretKey
	reflect.ValueOf(&shared).Elem().Set(reflect.ValueOf(secret).Elem())
	held := secret.held.key.bytes()
	secret.Erase()
	secret.Erase()
	if !isZeros(held) || !bytes.Equal(given, kept.Bytes()) {
		t.Error("the key's bytes are not zeros, or the caller's are")
	}
	for _, it := range []*SecretKey{secret, &shared} {
		for number, err := range errorsOf(it) {
			var refusal Refusal
			if err != ErrErased || errors.As(err, &refusal) || errors.Is(err, ErrInvalid) {
				t.Error(number, err)
			}
		}
		for number, call := range []func(){func() { it.Bytes() }, func() { it.PublicKey() }, func() { it.Public() }} {
			if found := panicOf(call); found != ErrErased {
				t.Error(number, found)
			}
		}
		if it.Equal(it) || it.Equal(kept) || kept.Equal(it) {
			t.Error("a destroyed key is equal to one")
		}
		if text := fmt.Sprint(it); text != "SecretKey(SLH-DSA-SHA2-128f)" {
			t.Error(text)
		}
	}
	new(SecretKey).Erase()
	new(SecretKey).Destroy() // the deprecated name
	if ErrDestroyed != ErrErased {
		t.Error("the deprecated name is of another error")
	}
	expectRefusal(t, new(SecretKey).Check(), NoSuchSet, 8, "NoSuchSet")
}

// TestDestroyWhileSigning has a key destroyed while it signs: what is signed is valid, and at the end nothing is.
func TestDestroyWhileSigning(t *testing.T) {
	secret := generate(t)
	public, results := secret.PublicKey(), make(chan error)
	for signer := 0; signer < 4; signer++ {
		go func() {
			for {
				signature, err := secret.Sign(nil, []byte("letter"), nil)
				if err == nil {
					err = public.Verify([]byte("letter"), signature, nil)
				}
				results <- err
				if err != nil {
					return
				}
			}
		}()
	}
	for signed := 0; signed < 8; signed++ {
		if err := <-results; err != nil {
			t.Fatal(err)
		}
	}
	secret.Erase()
	for ended := 0; ended < 4; {
		if err := <-results; err == ErrErased {
			ended++
		} else if err != nil {
			t.Fatal(err)
		}
	}
}

// watched has an action run while each task is given to a function after it was done, and returns the signing.
func watched(action func(), after func(next task) error) (seen *signing) {
	var lock sync.Mutex
	runTask = func(it *signing, next task) error {
		lock.Lock()
		defer lock.Unlock()
		seen = it
		if err := it.run(next); err != nil || after == nil {
			return err
		}
		return after(next)
	}
	defer func() { runTask = (*signing).run }()
	action()
	return seen
}

// expectErased fails unless the key and all answers are zeros that jobs were given.
func expectErased(t *testing.T, seen *signing, rooms int) {
	t.Helper()
	if seen == nil || len(seen.answers) != rooms || !isZeros(seen.key) || !isZeros(bytes.Join(seen.answers, nil)) {
		t.Error("a buffer is not erased")
	}
}

func TestBuffersOfSecretsAreErased(t *testing.T) {
	secret, failed := generate(t), errors.New("a job that fails")
	options := map[*Options]int{{Workers: 2, Once: true}: 1, {Workers: 2}: 2, {Workers: 3, Once: true, Twice: true}: 2}
	for options, rooms := range options {
		expectErased(t, watched(func() { sign(t, secret, "letter", options) }, nil), rooms)
		fail := func(next task) error {
			if next.job == 40 {
				return failed
			}
			return nil
		}
		expectErased(t, watched(func() {
			if signature, err := secret.Sign(nil, []byte("letter"), options); err != failed || signature != nil {
				t.Error(err)
			}
		}, fail), rooms)
	}
	var drawn [][]byte
	source := readerFunc(func(into []byte) (int, error) {
		drawn = append(drawn, into)
		return rand.Read(into)
	})
	if _, err := Generate(source, fast); err != nil || len(drawn) != 1 || len(drawn[0]) != 48 || !isZeros(drawn[0]) {
		t.Error("seeds are not erased", err, len(drawn))
	}
}

// A readerFunc is a source of random bytes.
type readerFunc func(into []byte) (int, error)

func (read readerFunc) Read(into []byte) (int, error) {
	return read(into)
}

// TestFaultsAreFound flips one bit of one answer after its job: in its node, its tag, what follows, and its last byte.
func TestFaultsAreFound(t *testing.T) {
	secret := generate(t)
	for _, job := range []uint32{0, 21, 22, 54} {
		for _, at := range []int{0, 16, 32, -1} {
			for number := 0; number < 4; number++ {
				wrongRun, workers, runs := number%2, 2+number/2, 0
				options := &Options{Workers: workers}
				flip := func(next task) error {
					if next.job != job {
						return nil
					}
					if runs == wrongRun {
						next.answer[(at+len(next.answer))%len(next.answer)] ^= 1
					}
					runs++
					return nil
				}
				expectErased(t, watched(func() {
					signature, err := secret.Sign(nil, []byte("letter"), options)
					if err != ErrFault || signature != nil || runs != 2 {
						t.Error(job, at, number, runs, err)
					}
				}, flip), 2)
			}
		}
	}
}

// callsOf returns a call of each form, under these options.
func callsOf(secret *SecretKey, options *Options) map[string]func() ([]byte, error) {
	letter := []byte("letter")
	hashed := digest(crypto.SHA256, letter)
	return map[string]func() ([]byte, error){
		"pure":     func() ([]byte, error) { return secret.Sign(nil, letter, options) },
		"pre-hash": func() ([]byte, error) { return secret.HashSign(nil, crypto.SHA256, letter, options) },
		"digest":   func() ([]byte, error) { return secret.HashSignDigest(nil, crypto.SHA256, hashed, options) },
	}
}

// TestVerifyFindsFaults flips one bit of a signature after it was made.
func TestVerifyFindsFaults(t *testing.T) {
	secret := generate(t)
	defer func() { makeSignature = (*SecretKey).made }()
	for _, options := range []*Options{{Verify: true}, {Verify: true, Once: true}, {Verify: true, Workers: 2}} {
		for name, call := range callsOf(secret, options) {
			for _, at := range []int{0, 17087} {
				var seen []byte
				makeSignature = func(secret *SecretKey, options Options, it *form, key, random []byte) ([]byte, error) {
					signature, err := secret.made(options, it, key, random)
					signature[at] ^= 1
					seen = signature
					return signature, err
				}
				if signature, err := call(); !errors.Is(err, ErrFault) || signature != nil || !isZeros(seen) {
					t.Error(name, at, err)
				}
			}
		}
	}
}

// TestVerifyRefusesAWrongRoot signs under a key whose signatures are not valid.
func TestVerifyRefusesAWrongRoot(t *testing.T) {
	wrong := wrongRoot(t, generate(t))
	for _, options := range []*Options{{Verify: true}, {Verify: true, Once: true}} {
		for name, call := range callsOf(wrong, options) {
			if signature, err := call(); err != ErrFault || signature != nil {
				t.Error(name, err)
			}
		}
	}
}

// TestTextsOfFilesAreErased looks at the buffers that a key file is written from and read into.
func TestTextsOfFilesAreErased(t *testing.T) {
	secret, path := generate(t), filepath.Join(t.TempDir(), "key")
	for number, wanted := range []error{nil, os.ErrExist} {
		text, err := secret.MarshalKeyFile()
		if err != nil || len(text) != 164 {
			t.Fatal(err, len(text))
		}
		if err := writeNew(path, text, 0o600); !errors.Is(err, wanted) || !isZeros(text) {
			t.Error(number, err)
		}
	}
	for number, wanted := range []error{nil, BadHex} {
		var seen []byte
		_, err := readFile(path, func(text []byte) (*SecretKey, error) {
			seen = text
			if wanted != nil {
				return nil, wanted
			}
			return ParseSecretKey(text)
		})
		if !errors.Is(err, wanted) || len(seen) != 164 || !isZeros(seen[:cap(seen)]) {
			t.Error(number, err, len(seen))
		}
	}
}

// TestForgottenKeysAreErased has the garbage collector find a key that nobody destroyed.
func TestForgottenKeysAreErased(t *testing.T) {
	kept := generate(t)
	forgotten := func() []byte { return generate(t).held.key.bytes() }()
	for tries := 0; tries < 100 && !isZeros(forgotten); tries++ {
		runtime.GC()
		time.Sleep(10 * time.Millisecond)
	}
	if !isZeros(forgotten) || isZeros(kept.Bytes()) {
		t.Error("a key is not erased, or one that is in use is")
	}
}

// TestSignaturesAreComputedTwice counts the calls that compute two signatures: each has memory for both.
func TestSignaturesAreComputedTwice(t *testing.T) {
	secret, asked := generate(t), 0
	defer func(before func(int) []byte) { newScratch = before }(newScratch)
	newScratch = func(count int) []byte {
		asked++
		return make([]byte, count)
	}
	calls := map[*Options]int{nil: 1, {}: 1, {Once: true}: 0, {Twice: true}: 1, {Once: true, Twice: true}: 1}
	for options, wanted := range calls {
		for name, call := range callsOf(secret, options) {
			asked = 0
			if signature, err := call(); err != nil || len(signature) != 17088 || asked != wanted {
				t.Error(name, options, err, asked)
			}
		}
	}
}

// TestFaultsOfNewKeysAreFound flips one bit of SK.seed, PK.seed and PK.root of a new key.
func TestFaultsOfNewKeysAreFound(t *testing.T) {
	defer func() { makeKey = keyOf }()
	for _, at := range []int{0, 32, 63} {
		var made []byte
		makeKey = func(set Set, skSeed, skPrf, pkSeed, bytes []byte) error {
			made = bytes
			err := keyOf(set, skSeed, skPrf, pkSeed, bytes)
			bytes[at] ^= 1
			return err
		}
		if secret, err := Generate(nil, fast); err != ErrFault || secret != nil || !isZeros(made) {
			t.Error(at, err)
		}
	}
}

func TestTwiceSignsTheSame(t *testing.T) {
	secret, hashed := generate(t), digest(crypto.SHA256, []byte("letter"))
	for _, workers := range []int{0, 1, 3} {
		once, twice := &Options{Deterministic: true, Once: true}, &Options{Deterministic: true, Workers: workers}
		if !bytes.Equal(sign(t, secret, "letter", once), sign(t, secret, "letter", twice)) {
			t.Error(workers, "sign otherwise")
		}
		one, err := secret.HashSign(nil, crypto.SHA256, []byte("letter"), twice)
		other, otherErr := secret.HashSignDigest(nil, crypto.SHA256, hashed, twice)
		if err != nil || otherErr != nil || !bytes.Equal(one, other) {
			t.Error(workers, err, otherErr)
		}
	}
}

func TestOptionsAreValuesAndPointers(t *testing.T) {
	secret, letter := generate(t), []byte("letter")
	options := Options{Context: []byte("letters"), Deterministic: true}
	for _, hash := range []crypto.Hash{0, crypto.SHA256} {
		options.Hash = hash
		message := letter
		if hash != 0 {
			message = digest(hash, letter)
		}
		byValue, err := secret.Sign(nil, message, options)
		if err != nil {
			t.Fatal(err)
		}
		byPointer, err := secret.Sign(nil, message, &options)
		if err != nil || !bytes.Equal(byValue, byPointer) {
			t.Error(hash, "signs otherwise by a pointer", err)
		}
		if err := secret.PublicKey().Verify(message, byValue, &options); err != nil {
			t.Error(hash, err)
		}
	}
}

func TestMoreWorkersThanJobs(t *testing.T) {
	secret := generate(t)
	one := sign(t, secret, "letter", &Options{Deterministic: true})
	if !bytes.Equal(one, sign(t, secret, "letter", &Options{Deterministic: true, Workers: math.MaxInt})) {
		t.Error("many workers sign otherwise")
	}
}

func TestAFailedSourceIsNoRefusal(t *testing.T) {
	secret, failed := generate(t), errors.New("no bytes")
	_, generated := Generate(iotest.ErrReader(failed), fast)
	_, signed := secret.Sign(iotest.ErrReader(failed), []byte("letter"), nil)
	for _, err := range []error{generated, signed} {
		var refusal Refusal
		if !errors.Is(err, failed) || errors.As(err, &refusal) {
			t.Error(err)
		}
	}
}

func TestKeysArePrinted(t *testing.T) {
	secret := generate(t)
	public := secret.PublicKey()
	sum := sha256.Sum256(public.Bytes())
	wanted := map[any]string{
		secret: "SecretKey(SLH-DSA-SHA2-128f)",
		reflect.ValueOf(secret).Elem().Interface(): "SecretKey(SLH-DSA-SHA2-128f)",
		public: "PublicKey(SLH-DSA-SHA2-128f SHA256:" + base64.RawStdEncoding.EncodeToString(sum[:]) + ")",
	}
	for _, verb := range []string{"%v", "%+v", "%#v", "%s", "%x", "%d", "%q"} {
		for it, text := range wanted {
			if found := fmt.Sprintf(verb, it); found != text || fmt.Sprint(it.(fmt.Stringer).String()) != text {
				t.Error(verb, found)
			}
		}
		if found := fmt.Sprintf(verb, *public); found != wanted[public] {
			t.Error(verb, found)
		}
	}
}

// TestNoEncoderTakesASecretKey gives a secret key to encoders, in fields, too.
func TestNoEncoderTakesASecretKey(t *testing.T) {
	secret := generate(t)
	type holder struct{ Key *SecretKey }
	for _, it := range []any{secret, reflect.ValueOf(secret).Elem().Interface(), holder{secret}, []*SecretKey{secret}} {
		_, asJSON := json.Marshal(it)
		_, asXML := xml.Marshal(it)
		for _, err := range []error{asJSON, asXML, gob.NewEncoder(io.Discard).Encode(it)} {
			if !errors.Is(err, ErrMarshal) {
				t.Errorf("%T: %v", it, err)
			}
		}
	}
	if _, err := secret.MarshalBinary(); err != ErrMarshal {
		t.Error(err)
	}
}

func TestVersion(t *testing.T) {
	text, err := os.ReadFile("../../VERSION")
	if err != nil {
		t.Fatal(err)
	}
	var first, second, third uint32
	if _, err := fmt.Sscanf(string(text), "%d.%d.%d\n", &first, &second, &third); err != nil {
		t.Fatal(err)
	}
	if Version() != 1000000*first+1000*second+third {
		t.Error(Version(), string(text))
	}
}

func Example() {
	message := []byte("Dear reader,")
	secret, err := Generate(rand.Reader, SHA2_128f)
	if err != nil {
		panic(err)
	}
	public := secret.PublicKey()
	signature, err := secret.Sign(rand.Reader, message, &Options{Context: []byte("letters"), Workers: 4})
	if err != nil {
		panic(err)
	}
	fmt.Println(public.Verify(message, signature, &Options{Context: []byte("letters")}))
	fmt.Println(public.Verify(message, signature, nil))

	// A message that is read in pieces is signed by its digest.
	hashed := sha256.Sum256(message)
	signature, err = secret.Sign(rand.Reader, hashed[:], crypto.SHA256)
	if err != nil {
		panic(err)
	}
	fmt.Println(public.HashVerify(crypto.SHA256, message, signature, nil))
	// Output:
	// <nil>
	// slh: invalid
	// <nil>
}

// TestOptionsMayBeEmbedded signs by a struct that embeds Options: none of them is dropped.
func TestOptionsMayBeEmbedded(t *testing.T) {
	type mine struct {
		Options
		name string
	}
	secret, err := Generate(nil, SHA2_128f)
	if err != nil {
		t.Fatal(err)
	}
	options := Options{Context: []byte("letters"), Once: true, Verify: true}
	signature, err := secret.Sign(nil, []byte("Dear reader,"), mine{options, "letters"})
	if err != nil || secret.PublicKey().Verify([]byte("Dear reader,"), signature, &options) != nil {
		t.Error("the options of a struct that embeds them are dropped")
	}
	if secret.Equal((*SecretKey)(nil)) || secret.PublicKey().Equal((*PublicKey)(nil)) {
		t.Error("a key equals nil")
	}
}
