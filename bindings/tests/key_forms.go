// A program for check_key_forms of tests/key_forms.py, which says what it does.
package main

import (
	"bufio"
	"encoding/hex"
	"errors"
	"fmt"
	"os"
	"strings"

	"pipitscreen.example/slh"
)

func main() {
	out := bufio.NewWriter(os.Stdout)
	defer out.Flush()
	for lines := bufio.NewScanner(os.Stdin); lines.Scan(); {
		words := strings.Split(lines.Text(), " ")
		file, err := hex.DecodeString(words[2])
		if err != nil {
			panic(err)
		}
		var refusal slh.Refusal
		set, again, err := again(words[0], words[1] == "pem", file)
		if errors.As(err, &refusal) {
			fmt.Fprintln(out, uint32(refusal))
		} else if err != nil {
			panic(err)
		} else {
			fmt.Fprintf(out, "%d %x\n", uint32(set), again)
		}
	}
}

// again returns the set of a key, and the file that is written of it.
func again(kind string, isPEM bool, file []byte) (set slh.Set, made []byte, err error) {
	if kind == "public" {
		read, write := slh.ParsePKIXPublicKey, (*slh.PublicKey).MarshalPKIX
		if isPEM {
			read, write = slh.ParsePKIXPublicKeyPEM, (*slh.PublicKey).MarshalPKIXPEM
		}
		key, err := read(file)
		if err != nil {
			return 0, nil, err
		}
		made, err = write(key)
		return key.Set(), made, err
	}
	read, write := slh.ParsePKCS8SecretKey, (*slh.SecretKey).MarshalPKCS8
	if isPEM {
		read, write = slh.ParsePKCS8SecretKeyPEM, (*slh.SecretKey).MarshalPKCS8PEM
	}
	key, err := read(file)
	if err != nil {
		return 0, nil, err
	}
	made, err = write(key)
	return key.Set(), made, err
}
