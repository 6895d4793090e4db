// A program for tests/test_wycheproof.py: it verifies the tests of files in Wycheproof's form, and prints the numbers of
// those whose result it finds wrong, and the number of all.
package main

import (
	"encoding/hex"
	"encoding/json"
	"errors"
	"fmt"
	"log"
	"os"

	"pipitscreen.example/slh"
)

type file struct {
	Algorithm  string
	TestGroups []struct {
		PublicKey string
		Tests     []test
	}
}

type test struct {
	TcID                  int
	Msg, Ctx, Sig, Result string
}

func decoded(digits string) []byte {
	bytes, err := hex.DecodeString(digits)
	if err != nil {
		log.Fatal(err)
	}
	return bytes
}

func (it test) isRight(public *slh.PublicKey) bool {
	err := public.Verify(decoded(it.Msg), decoded(it.Sig), &slh.Options{Context: decoded(it.Ctx)})
	if err != nil && !errors.Is(err, slh.ErrInvalid) {
		log.Fatal(err)
	}
	return (err == nil) == (it.Result == "valid")
}

func main() {
	count := 0
	for _, path := range os.Args[1:] {
		text, err := os.ReadFile(path)
		if err != nil {
			log.Fatal(err)
		}
		var read file
		if err := json.Unmarshal(text, &read); err != nil {
			log.Fatal(err)
		}
		set, err := slh.ParseSet(read.Algorithm)
		if err != nil {
			log.Fatal(err)
		}
		for _, group := range read.TestGroups {
			public, err := slh.NewPublicKey(set, decoded(group.PublicKey))
			if err != nil {
				log.Fatal(err)
			}
			for _, it := range group.Tests {
				count++
				if !it.isRight(public) {
					fmt.Println(read.Algorithm, it.TcID)
				}
			}
		}
	}
	fmt.Println(count)
}
