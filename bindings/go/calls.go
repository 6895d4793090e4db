// The calls of libslh with types of Go: the one file that has C. In a build without cgo, without_cgo.go stands for it.

package slh

// #include <stdlib.h>
// #include "library.h"
import "C"

import (
	"runtime"
	"unsafe"
)

// The compiler refuses this if the header has other numbers.
var _ = [1]struct{}{}[uint32(C.SLH_DSA_SHA2_128S-SHA2_128s)|uint32(C.SLH_DSA_SHA2_128F-SHA2_128f)|
	uint32(C.SLH_DSA_SHA2_192S-SHA2_192s)|uint32(C.SLH_DSA_SHA2_192F-SHA2_192f)|
	uint32(C.SLH_DSA_SHA2_256S-SHA2_256s)|uint32(C.SLH_DSA_SHA2_256F-SHA2_256f)|
	uint32(C.SLH_CONTEXT_TOO_LONG-ContextTooLong)|uint32(C.SLH_BAD_LENGTH-BadLength)|
	uint32(C.SLH_NO_SUCH_SET-NoSuchSet)|uint32(C.SLH_NO_SUCH_FUNCTION-NoSuchFunction)|
	uint32(C.SLH_BAD_SEED_LENGTH-BadSeedLength)|uint32(C.SLH_BAD_DIGEST_LENGTH-BadDigestLength)|
	uint32(C.SLH_ANSWERS_DISAGREE-AnswersDisagree)|uint32(C.SLH_DONE-success)|uint32(C.SLH_INVALID-invalid)|
	uint32(C.SLH_FAULT-fault)|uint32(C.SLH_SELF_TEST_FAILED-selfTestFailed)|uint32(C.SLH_MAX_CONTEXT-maxContext)|
	uint32(C.SLH_NOT_A_KEY_FILE-NotAKeyFile)|uint32(C.SLH_UNKNOWN_SET-UnknownSet)|uint32(C.SLH_BAD_HEX-BadHex)|
	uint32(C.SLH_BAD_KEY_LENGTH-BadKeyLength)|uint32(C.SLH_TRAILING_BYTES-TrailingBytes)|
	uint32(C.SLH_MAX_SECRET_KEY-maxSecretKey)|uint32(C.SLH_MAX_DER-maxDER)|uint32(C.SLH_MAX_PEM-maxPEM)|
	uint32(C.SLH_SHA2_224-number224)|uint32(C.SLH_SHA2_256-number256)|uint32(C.SLH_SHA2_384-number384)|
	uint32(C.SLH_SHA2_512-number512)|uint32(C.SLH_SHA2_512_224-number512_224)|uint32(C.SLH_SHA2_512_256-number512_256)]

// forsLevels cuts no FORS tree: each is one job.
const forsLevels = C.uint32_t(0)

// ---- sets

func (set Set) lengths() (Lengths, uint32) {
	var pk, sk, sig, n C.size_t
	if result := C.slh_lengths(C.uint32_t(set), &pk, &sk, &sig, &n); result != success {
		return Lengths{}, uint32(result)
	}
	return Lengths{int(pk), int(sk), int(sig), int(n)}, success
}

func (set Set) selfTest(scratch []byte) uint32 {
	return uint32(C.slh_self_test(C.uint32_t(set), at(scratch), size(scratch)))
}

func (set Set) keygen(skSeed, skPrf, pkSeed, key []byte) uint32 {
	return uint32(C.slh_keygen(C.uint32_t(set), at(skSeed), size(skSeed), at(skPrf), size(skPrf), at(pkSeed),
		size(pkSeed), at(key), size(key)))
}

func (set Set) public(key, public []byte) uint32 {
	return uint32(C.slh_public(C.uint32_t(set), at(key), size(key), at(public), size(public)))
}

func (set Set) check(key []byte) uint32 {
	return uint32(C.slh_check(C.uint32_t(set), at(key), size(key)))
}

func version() uint32 {
	return uint32(C.slh_version())
}

func (refusal Refusal) nameInLibrary() string {
	var name [C.SLH_MAX_NAME]C.char
	if C.slh_refusal_name(C.uint32_t(refusal), &name[0], C.SLH_MAX_NAME) != success {
		return "NoSuchRefusal"
	}
	return C.GoString(&name[0])
}

// ---- files of keys

// readKey writes the key of a key file's text, and zeros behind it. It returns the set, and whether the key is secret.
func readKey(text, key []byte) (Set, bool, uint32) {
	var set, kind C.uint32_t
	result := C.slh_key_read(at(text), size(text), &set, &kind, at(key), size(key))
	return Set(set), kind == C.SLH_SECRET_KEY, uint32(result)
}

// readDER does what readKey does, for DER.
func readDER(der, key []byte) (Set, bool, uint32) {
	var set, kind C.uint32_t
	result := C.slh_der_read(at(der), size(der), &set, &kind, at(key), size(key))
	return Set(set), kind == C.SLH_SECRET_KEY, uint32(result)
}

// readPEM does what readKey does, for PEM.
func readPEM(text, key []byte) (Set, bool, uint32) {
	var set, kind C.uint32_t
	result := C.slh_pem_read(at(text), size(text), &set, &kind, at(key), size(key))
	return Set(set), kind == C.SLH_SECRET_KEY, uint32(result)
}

// writeKey writes the text of a key file, and zeros behind it.
func (set Set) writeKey(kind string, key, text []byte) uint32 {
	first := (*C.char)(unsafe.Pointer(at(text)))
	return uint32(C.slh_key_write(C.uint32_t(set), numberOf(kind), at(key), size(key), first, size(text)))
}

// writeDER writes the DER of a key, and zeros behind it. It returns the length.
func (set Set) writeDER(kind string, key, to []byte) (int, uint32) {
	var length C.uint32_t
	result := C.slh_der_write(C.uint32_t(set), numberOf(kind), at(key), size(key), &length, at(to), size(to))
	return int(length), uint32(result)
}

// writePEM does what writeDER does, for PEM.
func (set Set) writePEM(kind string, key, to []byte) (int, uint32) {
	var length C.uint32_t
	result := C.slh_pem_write(C.uint32_t(set), numberOf(kind), at(key), size(key), &length, at(to), size(to))
	return int(length), uint32(result)
}

func numberOf(kind string) C.uint32_t {
	if kind == secretFile {
		return C.SLH_SECRET_KEY
	}
	return C.SLH_PUBLIC_KEY
}

// ---- signatures

func set(it *form) C.uint32_t {
	return C.uint32_t(it.set)
}

func function(it *form) C.uint32_t {
	return C.uint32_t(it.function())
}

// sign writes a signature.
func (it *form) sign(key, randomizer, sig []byte) uint32 {
	msg, ctx := it.message, it.context
	switch it.kind {
	case pure:
		return uint32(C.slh_sign(set(it), at(key), size(key), at(msg), size(msg), at(ctx), size(ctx), at(randomizer),
			size(randomizer), at(sig), size(sig)))
	case preHash:
		return uint32(C.slh_hash_sign(set(it), function(it), at(key), size(key), at(msg), size(msg), at(ctx),
			size(ctx), at(randomizer), size(randomizer), at(sig), size(sig)))
	default:
		return uint32(C.slh_hash_sign_digest(set(it), function(it), at(key), size(key), at(msg), size(msg), at(ctx),
			size(ctx), at(randomizer), size(randomizer), at(sig), size(sig)))
	}
}

// signTwice writes a signature if two computations of it agree. The scratch has room for two, and is zeros afterwards.
func (it *form) signTwice(key, randomizer, scratch, sig []byte) uint32 {
	msg, ctx := it.message, it.context
	switch it.kind {
	case pure:
		return uint32(C.slh_sign_twice(set(it), at(key), size(key), at(msg), size(msg), at(ctx), size(ctx), at(randomizer),
			size(randomizer), at(scratch), size(scratch), at(sig), size(sig)))
	case preHash:
		return uint32(C.slh_hash_sign_twice(set(it), function(it), at(key), size(key), at(msg), size(msg), at(ctx), size(ctx),
			at(randomizer), size(randomizer), at(scratch), size(scratch), at(sig), size(sig)))
	default:
		return uint32(C.slh_hash_sign_digest_twice(set(it), function(it), at(key), size(key), at(msg), size(msg), at(ctx),
			size(ctx), at(randomizer), size(randomizer), at(scratch), size(scratch), at(sig), size(sig)))
	}
}

// start writes the start of a signature by jobs, which a digest has not.
func (it *form) start(key, randomizer, start []byte) uint32 {
	msg, ctx := it.message, it.context
	if it.kind == pure {
		return uint32(C.slh_sign_start(set(it), at(key), size(key), at(msg), size(msg), at(ctx), size(ctx), at(randomizer),
			size(randomizer), at(start), size(start)))
	}
	return uint32(C.slh_hash_sign_start(set(it), function(it), at(key), size(key), at(msg), size(msg), at(ctx), size(ctx),
		at(randomizer), size(randomizer), at(start), size(start)))
}

// verify returns SLH_DONE if a signature is valid.
func (it *form) verify(public, sig []byte) uint32 {
	msg, ctx := it.message, it.context
	switch it.kind {
	case pure:
		return uint32(C.slh_verify(set(it), at(public), size(public), at(msg), size(msg), at(ctx), size(ctx), at(sig),
			size(sig)))
	case preHash:
		return uint32(C.slh_hash_verify(set(it), function(it), at(public), size(public), at(msg), size(msg), at(ctx),
			size(ctx), at(sig), size(sig)))
	default:
		return uint32(C.slh_hash_verify_digest(set(it), function(it), at(public), size(public), at(msg), size(msg), at(ctx),
			size(ctx), at(sig), size(sig)))
	}
}

// ---- one signature as jobs

// plan writes the number of jobs. It returns the length of a start and that of all answers.
func (it *signing) plan() (int, int, uint32) {
	var startLen, answersLen C.size_t
	result := C.slh_sign_jobs(C.uint32_t(it.set), C.uint32_t(it.levels), forsLevels, (*C.uint32_t)(&it.jobs), &startLen,
		&answersLen)
	return int(startLen), int(answersLen), uint32(result)
}

// place returns where a job's answer is among all answers, and its length.
func (it *signing) place(job uint32) (int, int, uint32) {
	var first, count C.size_t
	result := C.slh_answer_place(C.uint32_t(it.set), C.uint32_t(it.levels), forsLevels, C.uint32_t(job), &first, &count)
	return int(first), int(count), uint32(result)
}

// do writes a job's answer.
func (it *signing) do(job uint32, answer []byte) uint32 {
	return uint32(C.slh_sign_job(C.uint32_t(it.set), C.uint32_t(it.levels), forsLevels, at(it.key), size(it.key),
		at(it.start), size(it.start), C.uint32_t(job), at(answer), size(answer)))
}

// join writes the signature of all answers.
func (it *signing) join(answers, sig []byte) uint32 {
	return uint32(C.slh_sign_join(C.uint32_t(it.set), C.uint32_t(it.levels), forsLevels, at(it.key), size(it.key),
		at(it.start), size(it.start), at(answers), size(answers), at(sig), size(sig)))
}

// ---- many signatures

// verdictsOn returns the verdicts on the items at some places, whose keys are of one set. C may not follow pointers of
// Go, so all bytes are copied. The copies are overwritten: a caller may have mistaken a secret key's bytes for a public
// key.
func verdictsOn(set Set, items []Signed, places []int) []uint32 {
	count := len(places)
	given := unsafe.Slice((*C.slh_signed)(C.calloc(C.size_t(count), C.sizeof_slh_signed)), count)
	defer C.free(unsafe.Pointer(&given[0]))
	room := newRoom(items, places)
	defer room.free()
	for i, place := range places {
		it := &items[place]
		given[i].pk, given[i].pk_len = room.put(it.Key.key.bytes())
		given[i].msg, given[i].msg_len = room.put(it.Message)
		given[i].ctx, given[i].ctx_len = room.put(it.Context)
		given[i].sig, given[i].sig_len = room.put(it.Signature)
	}
	// No verdict begins as valid.
	verdicts := make([]uint32, count)
	for i := range verdicts {
		verdicts[i] = invalid
	}
	// What it returns is in the verdicts, too.
	C.slh_verify_many(C.uint32_t(set), &given[0], C.size_t(count), (*C.uint32_t)(&verdicts[0]), C.size_t(count))
	return verdicts
}

// A room is memory of C for copies of bytes, of which the first used ones are taken.
type room struct {
	bytes []byte
	used  int
}

// newRoom returns the room for all bytes of the items at some places.
func newRoom(items []Signed, places []int) *room {
	count := 0
	for _, place := range places {
		it := &items[place]
		count += len(it.Key.key.bytes()) + len(it.Message) + len(it.Context) + len(it.Signature)
	}
	return &room{bytes: unsafe.Slice((*byte)(C.malloc(C.size_t(count))), count)}
}

// put copies bytes into the room. It returns where the copy is, and how many bytes there are.
func (room *room) put(bytes []byte) (*C.uint8_t, C.uint64_t) {
	taken := room.bytes[room.used : room.used+len(bytes)]
	copy(taken, bytes)
	room.used += len(bytes)
	return at(taken), C.uint64_t(len(bytes))
}

// free overwrites the bytes, and gives the memory back.
func (room *room) free() {
	erase(room.bytes)
	C.free(unsafe.Pointer(&room.bytes[0]))
}

// ---- memory and signals

// uninterrupted runs a call that takes secrets, on a thread that no signal interrupts meanwhile. The system would save
// all registers on the stack of the handler, and Go's runtime interrupts threads by signals, also in C.
func uninterrupted(call func() uint32) uint32 {
	runtime.LockOSThread()
	defer runtime.UnlockOSThread()
	var before C.signals
	C.block_signals(&before)
	defer C.restore_signals(&before)
	return call()
}

// at returns where bytes begin, and nil if there are none.
func at(bytes []byte) *C.uint8_t {
	if len(bytes) == 0 {
		return nil
	}
	return (*C.uint8_t)(unsafe.Pointer(&bytes[0]))
}

// erase overwrites bytes with zeros.
func erase(bytes []byte) {
	if len(bytes) > 0 {
		C.slh_erase(unsafe.Pointer(at(bytes)), size(bytes))
	}
}

// size returns how many bytes there are.
func size(bytes []byte) C.size_t {
	return C.size_t(len(bytes))
}
