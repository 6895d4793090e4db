// Tests of many signatures in one call: those that other implementations made, and damaged ones.

package slh

import (
	"fmt"
	"testing"
)

var counts = []int{0, 1, 7, 8, 9, 17}

// judged verifies items. Each verdict has to be nil or ErrInvalid.
func judged(t *testing.T, items []Signed) []bool {
	t.Helper()
	valid := []bool{}
	for _, err := range VerifyMany(items) {
		if err != nil && err != ErrInvalid {
			t.Fatal(err)
		}
		valid = append(valid, err == nil)
	}
	return valid
}

func expectVerdicts(t *testing.T, what string, items []Signed, wanted []bool) {
	t.Helper()
	if found := judged(t, items); fmt.Sprint(found) != fmt.Sprint(wanted) {
		t.Errorf("%s: %v, not %v", what, found, wanted)
	}
}

// The tests of all sets, in lists that begin at each seventh test.
func TestVerifyManyVectors(t *testing.T) {
	var items []Signed
	var valid []bool
	for _, test := range vectors(t, "verify") {
		if test.Form == "pure" {
			public, err := NewPublicKey(test.set(t), test.Pk)
			if err != nil {
				t.Fatal(err)
			}
			items = append(items, Signed{public, test.Message, test.Context, test.Signature})
			valid = append(valid, *test.Valid)
		}
	}
	expectVerdicts(t, "all", items, valid)
	for _, count := range counts {
		for first := 0; first+count <= len(items); first += 7 {
			what := fmt.Sprint(count, " from ", first, " on")
			expectVerdicts(t, what, items[first:first+count], valid[first:first+count])
		}
	}
}

// In a list of valid items one has another message, context, key or signature.
func TestVerifyManyDamaged(t *testing.T) {
	secret, err := Generate(nil, fast)
	if err != nil {
		t.Fatal(err)
	}
	other, err := Generate(nil, fast)
	if err != nil {
		t.Fatal(err)
	}
	signature, err := secret.Sign(nil, []byte("letter"), nil)
	if err != nil {
		t.Fatal(err)
	}
	damaged := append([]byte{}, signature...)
	damaged[len(damaged)-1] ^= 1
	key, letter := secret.PublicKey(), []byte("letter")
	good := Signed{key, letter, nil, signature}
	bad := []Signed{
		{other.PublicKey(), letter, nil, signature},
		{key, []byte("letters"), nil, signature},
		{key, nil, nil, signature},
		{key, letter, []byte("context"), signature},
		{key, letter, make([]byte, 256), signature},
		{key, letter, nil, damaged},
		{key, letter, nil, damaged[1:]},
		{key, letter, nil, nil},
	}
	for _, at := range [][2]int{{1, 0}, {7, 3}, {8, 0}, {8, 7}, {9, 8}, {17, 8}, {17, 16}} {
		for which, it := range bad {
			items, wanted := make([]Signed, at[0]), make([]bool, at[0])
			for i := range items {
				items[i], wanted[i] = good, i != at[1]
			}
			items[at[1]] = it
			expectVerdicts(t, fmt.Sprint(at, which), items, wanted)
		}
	}
}
