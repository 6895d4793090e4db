package slh

import (
	"errors"
	"fmt"
)

// hidden has a key's bytes in the variable of a closure. Package fmt calls no method on an unexported field, and reads
// through pointers and slices by reflection. Reflection reads nothing of a closure but the address of its code. C's
// memory behind a number would hide the bytes as well, but has to be freed, while copies of a key may still use it. The
// garbage collector moves no memory of the heap, so erasing the bytes leaves no other copy.
type hidden func() []byte

// hide returns bytes, which are not copied, behind a closure.
func hide(bytes []byte) hidden {
	return func() []byte { return bytes }
}

// bytes returns the bytes, which are not copied. The zero value has none.
func (it hidden) bytes() []byte {
	if it == nil {
		return nil
	}
	return it()
}

// noCopy has go vet report copies of the struct that it is a field of.
type noCopy struct{}

func (*noCopy) Lock()   {}
func (*noCopy) Unlock() {}

// ErrMarshal is the error of each encoder that is given a secret key.
var ErrMarshal = errors.New("slh: a secret key is written by MarshalKeyFile, WriteFile and Bytes alone")

// redacted has the methods by which other packages print and encode a secret key. SecretKey embeds it, so that values
// and pointers have these methods, while go vet reports each method of SecretKey itself that takes a value.
type redacted struct {
	set     Set
	lengths Lengths
}

// String returns the set, and not the bytes, as SecretKey(SLH-DSA-SHA2-128f).
func (secret redacted) String() string {
	return fmt.Sprintf("SecretKey(%s)", secret.set)
}

// Format writes String for each verb of package fmt.
func (secret redacted) Format(state fmt.State, verb rune) {
	fmt.Fprint(state, secret.String())
}

// MarshalText returns ErrMarshal.
func (redacted) MarshalText() ([]byte, error) {
	return nil, ErrMarshal
}

// MarshalJSON returns ErrMarshal.
func (redacted) MarshalJSON() ([]byte, error) {
	return nil, ErrMarshal
}

// MarshalBinary returns ErrMarshal.
func (redacted) MarshalBinary() ([]byte, error) {
	return nil, ErrMarshal
}

// GobEncode returns ErrMarshal.
func (redacted) GobEncode() ([]byte, error) {
	return nil, ErrMarshal
}
