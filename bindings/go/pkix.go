package slh

import "fmt"

// Keys as other programs read them: SubjectPublicKeyInfo and PKCS#8, as DER and PEM. libslh reads and writes one form of
// each set and kind.

// The most bytes that libslh writes, with a zero byte after PEM.
const (
	maxDER = 150
	maxPEM = 259
)

// ParsePKIXPublicKey returns the public key of a SubjectPublicKeyInfo in DER. All but the one form is refused as
// NotAKeyFile. The error has the command of OpenSSL 3.5 that converts the file.
func ParsePKIXPublicKey(der []byte) (*PublicKey, error) {
	return publicOfPKIX(der, false)
}

// ParsePKIXPublicKeyPEM returns the public key of a PEM file, PUBLIC KEY. It is refused as by ParsePKIXPublicKey. The
// last line feed may be missing.
func ParsePKIXPublicKeyPEM(text []byte) (*PublicKey, error) {
	return publicOfPKIX(text, true)
}

// ParsePKCS8SecretKey returns the secret key of a PKCS#8 PrivateKeyInfo in DER, which is the caller's to overwrite. All
// but the one form is refused as NotAKeyFile, also an encrypted key, and one with its public key or attributes. The
// error has the command of OpenSSL 3.5 that converts the file. Call Check once on a key that comes from elsewhere.
func ParsePKCS8SecretKey(der []byte) (*SecretKey, error) {
	return secretOfPKIX(der, false)
}

// ParsePKCS8SecretKeyPEM returns the secret key of a PEM file, PRIVATE KEY, which is the caller's to overwrite. It is
// refused as by ParsePKCS8SecretKey. The last line feed may be missing.
func ParsePKCS8SecretKeyPEM(text []byte) (*SecretKey, error) {
	return secretOfPKIX(text, true)
}

// MarshalPKIX returns the SubjectPublicKeyInfo of the key in DER.
func (public *PublicKey) MarshalPKIX() ([]byte, error) {
	return pkixOf(publicFile, public.set, public.key.bytes(), false)
}

// MarshalPKIXPEM returns the SubjectPublicKeyInfo of the key as PEM.
func (public *PublicKey) MarshalPKIXPEM() ([]byte, error) {
	return pkixOf(publicFile, public.set, public.key.bytes(), true)
}

// MarshalPKCS8 returns the key as PKCS#8 in DER, not encrypted, which is the caller's to overwrite. It returns
// ErrErased.
func (secret *SecretKey) MarshalPKCS8() ([]byte, error) {
	return secret.pkix(false)
}

// MarshalPKCS8PEM returns the key as PKCS#8 in PEM, not encrypted, which is the caller's to overwrite. It returns
// ErrErased.
func (secret *SecretKey) MarshalPKCS8PEM() ([]byte, error) {
	return secret.pkix(true)
}

func (secret *SecretKey) pkix(isPEM bool) (made []byte, err error) {
	err = secret.use(func(key []byte) (err error) {
		made, err = pkixOf(secretFile, secret.set, key, isPEM)
		return err
	})
	return made, err
}

func publicOfPKIX(data []byte, isPEM bool) (*PublicKey, error) {
	set, key, err := parsePKIX(publicFile, data, isPEM)
	if err != nil {
		return nil, err
	}
	return NewPublicKey(set, key)
}

func secretOfPKIX(data []byte, isPEM bool) (*SecretKey, error) {
	set, key, err := parsePKIX(secretFile, data, isPEM)
	if err != nil {
		return nil, err
	}
	return newSecret(set, key)
}

func parsePKIX(kind string, data []byte, isPEM bool) (Set, []byte, error) {
	read := readDER
	if isPEM {
		read = readPEM
	}
	return parse(kind, data, read, func(result uint32) error {
		if result != success && result != uint32(NotAKeyFile) {
			return done(result)
		}
		return notOfForm(kind, data, isPEM, result == success)
	})
}

// pkixOf returns the DER or PEM of a key.
func pkixOf(kind string, set Set, key []byte, isPEM bool) ([]byte, error) {
	made, length, write := make([]byte, maxDER), 0, set.writeDER
	if isPEM {
		made, write = make([]byte, maxPEM), set.writePEM
	}
	err := done(uninterrupted(func() (result uint32) {
		length, result = write(kind, key, made)
		return result
	}))
	if err != nil {
		return nil, err
	}
	return made[:length], nil
}

// notOfForm returns why a file is refused, with the command that converts it.
func notOfForm(kind string, data []byte, isPEM, isOtherKind bool) error {
	if kind == publicFile && isOtherKind {
		return fmt.Errorf("%w: the key is secret, and a public one is asked for", NotAKeyFile)
	}
	in, out := "-in FILE", "-out NEW"
	if !isPEM {
		in, out = "-inform DER -in FILE", "-outform DER -out NEW"
	}
	convert := "openssl pkey " + in + " " + out
	if kind == publicFile {
		convert = "openssl pkey -pubin " + in + " -pubout " + out
	}
	const encrypted = "-----BEGIN ENCRYPTED PRIVATE"
	if len(data) > len(encrypted) && string(data[:len(encrypted)]) == encrypted {
		return fmt.Errorf("%w: the key is encrypted; this asks for its password: %s", NotAKeyFile, convert)
	}
	const why = "%w: this is not the one form of a %s key of the six sets; this converts it: %s"
	return fmt.Errorf(why, NotAKeyFile, kind, convert)
}
