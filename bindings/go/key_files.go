package slh

import (
	"fmt"
	"io"
	"os"
)

// The kinds of key files (docs/FORMATS.md, "Key file").
const (
	secretFile = "secret"
	publicFile = "public"
)

// mostRead is the most bytes that are read of a file. No longer file is a key file.
const mostRead = 1 << 16

// In key files of the six sets lines 2 and 3 begin at these places.
const (
	nameAt   = 17
	digitsAt = 35
)

// ParseSecretKey returns the secret key of a key file's text, of either version, with the file's set. Call Check once
// on a key that comes from elsewhere. The text is the caller's to overwrite. It is refused as NotAKeyFile, UnknownSet,
// BadHex, BadKeyLength or TrailingBytes, by its first fault.
func ParseSecretKey(text []byte) (*SecretKey, error) {
	set, key, err := parseText(secretFile, text)
	if err != nil {
		return nil, err
	}
	return newSecret(set, key)
}

// ParsePublicKey returns the public key of a key file's text, of either version, with the file's set. It is refused as
// ParseSecretKey refuses. The text of a secret key is refused as NotAKeyFile.
func ParsePublicKey(text []byte) (*PublicKey, error) {
	set, key, err := parseText(publicFile, text)
	if err != nil {
		return nil, err
	}
	return NewPublicKey(set, key)
}

// ReadSecretKeyFile returns the secret key of a key file, as ParseSecretKey does, and overwrites the text in memory. It
// reads 65,536 bytes at most; a key file has 292 at most.
func ReadSecretKeyFile(path string) (*SecretKey, error) {
	return readFile(path, ParseSecretKey)
}

// ReadPublicKeyFile returns the public key of a key file, as ParsePublicKey does. It reads 65,536 bytes at most.
func ReadPublicKeyFile(path string) (*PublicKey, error) {
	return readFile(path, ParsePublicKey)
}

// MarshalKeyFile returns the text of a key file of version 2, which is the caller's to overwrite. It returns
// ErrErased.
func (secret *SecretKey) MarshalKeyFile() ([]byte, error) {
	var text []byte
	err := secret.use(func(key []byte) (err error) {
		text, err = keyFile(secretFile, secret.set, key)
		return err
	})
	return text, err
}

// MarshalKeyFile returns the text of a key file of version 2.
func (public *PublicKey) MarshalKeyFile() ([]byte, error) {
	return keyFile(publicFile, public.set, public.key.bytes())
}

// WriteFile writes a new key file of version 2, which its owner alone may read (mode 0600). A file that exists is
// refused, with an error that is fs.ErrExist. If writing fails, the new file is removed. It returns ErrErased.
func (secret *SecretKey) WriteFile(path string) error {
	text, err := secret.MarshalKeyFile()
	if err != nil {
		return err
	}
	return writeNew(path, text, 0o600)
}

// WriteFile writes a new key file of version 2, of mode 0644 less the umask. A file that exists is refused, with an
// error that is fs.ErrExist. If writing fails, the new file is removed.
func (public *PublicKey) WriteFile(path string) error {
	text, err := public.MarshalKeyFile()
	if err != nil {
		return err
	}
	return writeNew(path, text, 0o644)
}

// keyFile returns the text of a key file of version 2. libslh writes a zero byte after it.
func keyFile(kind string, set Set, key []byte) ([]byte, error) {
	text := make([]byte, digitsAt+2*len(key)+2)
	if err := done(uninterrupted(func() uint32 { return set.writeKey(kind, key, text) })); err != nil {
		return nil, err
	}
	return text[:len(text)-1], nil
}

// parse returns the set and the key of a file, which a call of libslh reads. The call writes zeros behind the key, and
// returns whether it is secret. why returns the error if the call refuses, and also if the key is of the other kind: the
// result of the call is success then.
func parse(
	kind string, file []byte, read func(file, key []byte) (Set, bool, uint32), why func(result uint32) error,
) (set Set, key []byte, err error) {
	room, isSecret := make([]byte, maxSecretKey), false
	result := uninterrupted(func() (result uint32) {
		set, isSecret, result = read(file, room)
		return result
	})
	if result != success || isSecret != (kind == secretFile) {
		erase(room)
		return 0, nil, why(result)
	}
	return set, room[:keyLength(kind, set)], nil
}

// parseText returns the set and the key of a key file's text.
func parseText(kind string, text []byte) (Set, []byte, error) {
	return parse(kind, text, readKey, func(result uint32) error { return whyRefused(result, kind, text) })
}

// keyLength returns the length of a key of this kind, or 0 if there is no such set.
func keyLength(kind string, set Set) int {
	lengths, err := set.Lengths()
	if err != nil {
		return 0
	}
	if kind == publicFile {
		return lengths.PublicKey
	}
	return lengths.SecretKey
}

// whyRefused returns the error of a text that libslh refuses, or whose key is of the other kind. libslh reads files of
// both kinds, and names the other faults of a set without a number, whose name begins with custom, before that set. Here
// these two come first. It looks for no line feed by package bytes, which would leave digits of the key in vector
// registers.
func whyRefused(result uint32, kind string, text []byte) error {
	refusal := Refusal(result)
	switch {
	case result == success:
		return NotAKeyFile
	case refusal < UnknownSet || refusal > TrailingBytes:
		return done(result)
	case string(text[len("slh-dsa-"):nameAt-len(" 2\n")]) != kind:
		return NotAKeyFile
	case refusal == UnknownSet || text[nameAt] == 'c':
		return UnknownSet
	case refusal != BadKeyLength:
		return refusal
	}
	set, err := ParseSet(string(text[nameAt : digitsAt-1]))
	if err != nil {
		return err
	}
	end := digitsAt
	for end < len(text) && text[end] != '\n' {
		end++
	}
	const why = "%w: a %s key of %s has %d digits, not %d"
	return fmt.Errorf(why, BadKeyLength, kind, set, 2*keyLength(kind, set), end-digitsAt)
}

// readFile returns the result of a call over a file's text, and overwrites the text. It reads into one buffer of a
// fixed length, since a buffer that grows leaves copies.
func readFile[Key any](path string, call func(text []byte) (Key, error)) (key Key, err error) {
	file, err := os.Open(path)
	if err != nil {
		return key, err
	}
	defer file.Close()
	text := make([]byte, mostRead)
	defer erase(text)
	count, err := io.ReadFull(file, text)
	if err != nil && err != io.EOF && err != io.ErrUnexpectedEOF {
		return key, err
	}
	key, err = call(text[:count])
	if err != nil {
		return key, fmt.Errorf("%s: %w", path, err)
	}
	return key, nil
}

// writeNew writes a new file, and removes it again if that fails. Then it overwrites the text.
func writeNew(path string, text []byte, mode os.FileMode) (err error) {
	defer erase(text)
	file, err := os.OpenFile(path, os.O_WRONLY|os.O_CREATE|os.O_EXCL, mode)
	if err != nil {
		return err
	}
	defer func() {
		if closed := file.Close(); err == nil {
			err = closed
		}
		if err != nil {
			os.Remove(path)
		}
	}()
	if _, err := file.Write(text); err != nil {
		return err
	}
	return file.Sync()
}
