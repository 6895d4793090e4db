// Tests of keys as SubjectPublicKeyInfo and PKCS#8, with OpenSSL 3.5.

package slh

import (
	"bytes"
	"encoding/pem"
	"errors"
	"fmt"
	"os"
	"os/exec"
	"path/filepath"
	"strings"
	"testing"
)

// openSSL returns the command of OpenSSL 3.5 or later, or skips the test.
func openSSL(t *testing.T) string {
	for _, name := range []string{os.Getenv("OPENSSL"), "openssl-3.5", "/usr/local/bin/openssl-3.5", "openssl"} {
		said, err := exec.Command(name, "list", "-signature-algorithms").Output()
		if err == nil && bytes.Contains(said, []byte("SLH-DSA-SHA2-128f")) {
			return name
		}
	}
	t.Skip("there is no OpenSSL 3.5")
	return ""
}

func runOpenSSL(t *testing.T, name string, given []byte, words ...string) []byte {
	t.Helper()
	command := exec.Command(name, words...)
	command.Stdin = bytes.NewReader(given)
	out, err := command.Output()
	if err != nil {
		t.Fatalf("%s %v: %v", name, words, err)
	}
	return out
}

func expectBytes(t *testing.T, what string, got []byte, err error, want []byte) {
	t.Helper()
	if err != nil || !bytes.Equal(got, want) {
		t.Fatalf("%s: %v, %v: want %v", what, got, err, want)
	}
}

// TestPKIXWithOpenSSL takes keys of OpenSSL, and gives it keys, of the six sets.
func TestPKIXWithOpenSSL(t *testing.T) {
	name := openSSL(t)
	for set, label := range setNames {
		text := runOpenSSL(t, name, nil, "genpkey", "-algorithm", label)
		secret, err := ParsePKCS8SecretKeyPEM(text)
		if err != nil || secret.Set() != set || secret.Check() != nil {
			t.Fatal(label, err)
		}
		got, err := secret.MarshalPKCS8PEM()
		expectBytes(t, label, got, err, text)
		der := runOpenSSL(t, name, text, "pkey", "-outform", "DER")
		got, err = secret.MarshalPKCS8()
		expectBytes(t, label, got, err, der)
		if _, err := ParsePKCS8SecretKey(der); err != nil {
			t.Fatal(label, err)
		}
		got, err = secret.PublicKey().MarshalPKIXPEM()
		expectBytes(t, label, got, err, runOpenSSL(t, name, text, "pkey", "-pubout"))
		public, err := ParsePKIXPublicKeyPEM(got)
		if err != nil || !public.Equal(secret.PublicKey()) {
			t.Fatal(label, err)
		}
		der = runOpenSSL(t, name, text, "pkey", "-pubout", "-outform", "DER")
		got, err = public.MarshalPKIX()
		expectBytes(t, label, got, err, der)
		made, err := Generate(nil, set)
		if err != nil {
			t.Fatal(err)
		}
		text, _ = made.MarshalPKCS8PEM()
		want, _ := made.PublicKey().MarshalPKIXPEM()
		if !bytes.Contains(runOpenSSL(t, name, text, "pkey", "-check", "-pubout"), want[:len(want)-1]) {
			t.Fatal(label, "OpenSSL has another public key")
		}
	}
}

// TestPKIXConverts runs the commands that the errors name.
func TestPKIXConverts(t *testing.T) {
	name, folder := openSSL(t), t.TempDir()
	text := runOpenSSL(t, name, nil, "genpkey", "-algorithm", "SLH-DSA-SHA2-128f")
	encrypted := runOpenSSL(t, name, text, "pkey", "-aes256", "-passout", "pass:word")
	for _, other := range [][]byte{encrypted, append([]byte("a comment\n"), text...)} {
		_, err := ParsePKCS8SecretKeyPEM(other)
		if !errors.Is(err, NotAKeyFile) {
			t.Fatal(err)
		}
		parts := strings.Split(err.Error(), ": ")
		words := append(strings.Fields(parts[len(parts)-1])[1:], "-passin", "pass:word")
		if err := os.WriteFile(filepath.Join(folder, "FILE"), other, 0o600); err != nil {
			t.Fatal(err)
		}
		command := exec.Command(name, words...)
		command.Dir = folder
		if err := command.Run(); err != nil {
			t.Fatal(words, err)
		}
		got, err := os.ReadFile(filepath.Join(folder, "NEW"))
		expectBytes(t, "converted", got, err, text)
	}
}

// TestPKIXForms compares with prefixes that are written out, and with PEM of encoding/pem.
func TestPKIXForms(t *testing.T) {
	for set := range setNames {
		n := map[Set]int{SHA2_128s: 16, SHA2_128f: 16, SHA2_192s: 24, SHA2_192f: 24, SHA2_256s: 32, SHA2_256f: 32}[set]
		last := map[Set]byte{SHA2_128s: 0x14, SHA2_128f: 0x15, SHA2_192s: 0x16, SHA2_192f: 0x17, SHA2_256s: 0x18,
			SHA2_256f: 0x19}[set]
		sk, _ := randomBytes(4 * n)
		secret, err := NewSecretKey(set, sk)
		if err != nil {
			t.Fatal(err)
		}
		oid := "300b0609608648016503040" + fmt.Sprintf("3%02x", last)
		heads := map[int]string{16: "3052020100" + oid + "0440", 24: "3072020100" + oid + "0460",
			32: "308193020100" + oid + "048180"}
		want := append(unhex(heads[n]), sk...)
		got, err := secret.MarshalPKCS8()
		expectBytes(t, "PKCS#8", got, err, want)
		text, err := secret.MarshalPKCS8PEM()
		expectBytes(t, "PEM", text, err, pem.EncodeToMemory(&pem.Block{Type: "PRIVATE KEY", Bytes: want}))
		heads = map[int]string{16: "3030" + oid + "032100", 24: "3040" + oid + "033100", 32: "3050" + oid + "034100"}
		want = append(unhex(heads[n]), sk[2*n:]...)
		got, err = secret.PublicKey().MarshalPKIX()
		expectBytes(t, "SubjectPublicKeyInfo", got, err, want)
		text, err = secret.PublicKey().MarshalPKIXPEM()
		expectBytes(t, "PEM", text, err, pem.EncodeToMemory(&pem.Block{Type: "PUBLIC KEY", Bytes: want}))
	}
}

func unhex(digits string) (made []byte) {
	if _, err := fmt.Sscanf(digits, "%x", &made); err != nil {
		panic(err)
	}
	return made
}

func randomBytes(count int) ([]byte, error) {
	made := make([]byte, count)
	for i := range made {
		made[i] = byte(i * 7)
	}
	return made, nil
}

// TestPKIXRefuses changes each byte of a prefix, and each character of PEM to one that is no digit.
func TestPKIXRefuses(t *testing.T) {
	secret, err := Keygen(SHA2_256s, make([]byte, 32), make([]byte, 32), make([]byte, 32))
	if err != nil {
		t.Fatal(err)
	}
	der, _ := secret.MarshalPKCS8()
	for at := 0; at < len(der)-128; at++ {
		for bit := 0; bit < 8; bit++ {
			other := append([]byte(nil), der...)
			other[at] ^= 1 << bit
			if der[at] == 0x18 && other[at] == 0x19 {
				continue
			}
			if _, err := ParsePKCS8SecretKey(other); !errors.Is(err, NotAKeyFile) {
				t.Fatal(at, bit, err)
			}
		}
	}
	text, _ := secret.MarshalPKCS8PEM()
	for at := range text {
		for _, char := range []byte("\n=-\r") {
			other := append([]byte(nil), text...)
			other[at] = char
			_, err := ParsePKCS8SecretKeyPEM(other)
			if char != text[at] && !errors.Is(err, NotAKeyFile) {
				t.Fatal(at, char, err)
			}
		}
	}
	for _, other := range [][]byte{nil, text[:len(text)-2], append(text[:len(text):len(text)], '\n'), text[1:]} {
		if _, err := ParsePKCS8SecretKeyPEM(other); !errors.Is(err, NotAKeyFile) {
			t.Fatal(len(other), err)
		}
	}
	_, err = ParsePKIXPublicKeyPEM(text)
	_, second := ParsePKIXPublicKey(der)
	for _, err := range []error{err, second} {
		if !errors.Is(err, NotAKeyFile) || !strings.Contains(err.Error(), "the key is secret") {
			t.Fatal(err)
		}
	}
	if _, err := ParsePKCS8SecretKeyPEM(text[:len(text)-1]); err != nil {
		t.Fatal(err)
	}
	secret.Erase()
	_, err = secret.MarshalPKCS8()
	_, second = secret.MarshalPKCS8PEM()
	if err != ErrErased || second != ErrErased {
		t.Fatal(err, second)
	}
}
