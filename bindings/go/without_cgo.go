//go:build !cgo

package slh

// Without cgo the package compiles, and each call returns withoutCgo, whose error names what to set. Calls of libslh from
// assembly were tried: the garbage collector waits for such a call, and each other goroutine waits for the collector, as
// long as a signature takes.

func (set Set) lengths() (Lengths, uint32)                         { return Lengths{}, withoutCgo }
func (set Set) selfTest(scratch []byte) uint32                     { return withoutCgo }
func (set Set) keygen(skSeed, skPrf, pkSeed, key []byte) uint32    { return withoutCgo }
func (set Set) public(key, public []byte) uint32                   { return withoutCgo }
func (set Set) check(key []byte) uint32                            { return withoutCgo }
func readKey(text, key []byte) (Set, bool, uint32)                 { return 0, false, withoutCgo }
func readDER(der, key []byte) (Set, bool, uint32)                  { return 0, false, withoutCgo }
func readPEM(text, key []byte) (Set, bool, uint32)                 { return 0, false, withoutCgo }
func (set Set) writeKey(kind string, key, text []byte) uint32      { return withoutCgo }
func (set Set) writeDER(kind string, key, to []byte) (int, uint32) { return 0, withoutCgo }
func (set Set) writePEM(kind string, key, to []byte) (int, uint32) { return 0, withoutCgo }
func version() uint32                                              { return 0 }
func (it *form) sign(key, randomizer, sig []byte) uint32           { return withoutCgo }
func (it *form) signTwice(key, random, scratch, sig []byte) uint32 { return withoutCgo }
func (it *form) start(key, randomizer, start []byte) uint32        { return withoutCgo }
func (it *form) verify(public, sig []byte) uint32                  { return withoutCgo }
func (it *signing) plan() (int, int, uint32)                       { return 0, 0, withoutCgo }
func (it *signing) place(job uint32) (int, int, uint32)            { return 0, 0, withoutCgo }
func (it *signing) do(job uint32, answer []byte) uint32            { return withoutCgo }
func (it *signing) join(answers, sig []byte) uint32                { return withoutCgo }
func uninterrupted(call func() uint32) uint32                      { return call() }

// nameInLibrary knows the refusal of ParseSet, which needs no libslh.
func (refusal Refusal) nameInLibrary() string {
	if refusal == UnknownSet {
		return "UnknownSet"
	}
	return "NoSuchRefusal"
}

func verdictsOn(set Set, items []Signed, places []int) []uint32 {
	verdicts := make([]uint32, len(places))
	for i := range verdicts {
		verdicts[i] = withoutCgo
	}
	return verdicts
}

// erase overwrites bytes with zeros.
func erase(bytes []byte) {
	for i := range bytes {
		bytes[i] = 0
	}
}
