// Many signatures that are verified in one call.

package slh

// A Signed is a signature with its key, message and context: an item of VerifyMany.
type Signed struct {
	Key                         *PublicKey
	Message, Context, Signature []byte
}

// VerifyMany verifies signatures of the pure form, in less time than a call of Verify for each takes. The keys may be
// of several sets: the library is called once for each set. It returns an error for each item, in order: nil if the
// signature is valid, and else ErrInvalid, as Verify does.
func VerifyMany(items []Signed) []error {
	errs := make([]error, len(items))
	places := map[Set][]int{}
	for place := range items {
		set := items[place].Key.set
		places[set] = append(places[set], place)
	}
	for set, of := range places {
		verdicts := verdictsOn(set, items, of)
		for i, place := range of {
			errs[place] = done(verdicts[i])
		}
	}
	return errs
}
