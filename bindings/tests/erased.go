// A program for check_memory of tests/packages.py. If a signal interrupts a thread, the system saves the registers. So
// this sends itself many signals, by which Go's runtime interrupts goroutines. And on x86-64 it looks for
// SK.seed and SK.prf in xmm0 to xmm15 after calls.
package main

/*
#include <stdint.h>

static void copy_vectors(uint8_t *to) {
#ifdef __x86_64__
#define COPY(number) __asm__ volatile("movdqu %%xmm" #number ", (%0)" : : "r"(to + 16 * number) : "memory")
    COPY(0); COPY(1); COPY(2); COPY(3); COPY(4); COPY(5); COPY(6); COPY(7);
    COPY(8); COPY(9); COPY(10); COPY(11); COPY(12); COPY(13); COPY(14); COPY(15);
#else
    (void)to;
#endif
}
*/
import "C"

import (
	"bufio"
	"crypto"
	"crypto/subtle"
	"errors"
	"fmt"
	"io"
	"os"
	"path/filepath"
	"syscall"
	"time"
	"unsafe"

	"pipitscreen.example/slh"
)

func main() {
	go sendSignals()
	message, in := []byte("letter"), bufio.NewReader(os.Stdin)
	secret, err := slh.Generate(nil, slh.SHA2_128f)
	expect(err)
	key := secret.Bytes()
	expectNoneInVectors(key)
	again, err := slh.NewSecretKey(slh.SHA2_128f, key)
	expectNoneInVectors(key)
	expect(err)
	again.Destroy()
	expect(secret.Check())
	expectNoneInVectors(key)
	throughFile(secret, key)
	throughPKCS8(secret, key)
	for at := range key {
		fmt.Printf("%02x", key[at]^0x5a)
		key[at] = 0
	}
	fmt.Println()
	_, err = in.ReadString('\n')
	expect(err)
	public := secret.PublicKey()
	for number := 0; number < 8; number++ {
		options := slh.Options{Deterministic: true, Once: number&1 != 0, Verify: number&2 != 0, Workers: number & 4}
		_, err = secret.HashSign(nil, crypto.SHA256, message, &options)
		expect(err)
		_, err = secret.HashSignDigest(nil, crypto.SHA256, make([]byte, 32), &options)
		expect(err)
		signature, err := secret.Sign(nil, message, options)
		expect(err)
		expect(public.Verify(message, signature, nil))
	}
	secret.Destroy()
	fmt.Println("erased")
	io.Copy(io.Discard, in)
}

// throughPKCS8 writes a key in PEM and DER, reads both again, and destroys these keys.
func throughPKCS8(secret *slh.SecretKey, key []byte) {
	pem, err := secret.MarshalPKCS8PEM()
	expectNoneInVectors(key)
	expect(err)
	first, err := slh.ParsePKCS8SecretKeyPEM(pem)
	expectNoneInVectors(key)
	expect(err)
	der, err := secret.MarshalPKCS8()
	expectNoneInVectors(key)
	expect(err)
	second, err := slh.ParsePKCS8SecretKey(der)
	expectNoneInVectors(key)
	expect(err)
	if !first.Equal(secret) || !second.Equal(secret) {
		expect(fmt.Errorf("another key"))
	}
	first.Destroy()
	second.Destroy()
	for _, bytes := range [][]byte{pem, der} {
		for at := range bytes {
			bytes[at] = 0
		}
	}
}

// throughFile writes a key into a file, reads it again, also as one of the other kind, and destroys that key.
func throughFile(secret *slh.SecretKey, key []byte) {
	folder, err := os.MkdirTemp("", "")
	expect(err)
	defer os.RemoveAll(folder)
	path := filepath.Join(folder, "secret.key")
	expect(secret.WriteFile(path))
	expectNoneInVectors(key)
	again, err := slh.ReadSecretKeyFile(path)
	expectNoneInVectors(key)
	expect(err)
	if _, err = slh.ReadPublicKeyFile(path); !errors.Is(err, slh.NotAKeyFile) {
		panic("the file is a public one")
	}
	expectNoneInVectors(key)
	if !secret.Equal(again) {
		panic("the file has another key")
	}
	again.Destroy()
}

// sendSignals sends this process a signal each 50 microseconds.
func sendSignals() {
	for range time.Tick(50 * time.Microsecond) {
		expect(syscall.Kill(os.Getpid(), syscall.SIGURG))
	}
}

// expectNoneInVectors panics on x86-64 if SK.seed or SK.prf is in a vector register, and does nothing elsewhere. It
// compares byte by byte, and so leaves none there.
func expectNoneInVectors(key []byte) {
	var to [256]C.uint8_t
	C.copy_vectors(&to[0])
	vectors := C.GoBytes(unsafe.Pointer(&to[0]), C.int(len(to)))
	for at := 0; at < len(vectors); at += 16 {
		it := vectors[at : at+16]
		if subtle.ConstantTimeCompare(it, key[:16])|subtle.ConstantTimeCompare(it, key[16:32]) != 0 {
			panic("the key is in a register")
		}
	}
}

func expect(err error) {
	if err != nil {
		panic(err)
	}
}
