//go:build !portable

package slh_test

import (
	"os"
	"os/exec"
	"path/filepath"
	"regexp"
	"strings"
	"testing"
)

var (
	block   = regexp.MustCompile("(?s)```go\n(.*?)```")
	require = regexp.MustCompile(`(?m)^    (go mod edit .*)$`)
	hasErr  = regexp.MustCompile(`(?m)^.*\berr :?= .*$`)
)

// asUser runs a command in a module that has a program, and requires the package by README.md's command. It returns the
// output of both streams.
func asUser(t *testing.T, command, program string) (string, error) {
	t.Helper()
	page, err := os.ReadFile("README.md")
	expect(t, err)
	clone, err := filepath.Abs("../..")
	expect(t, err)
	edit := require.FindSubmatch(page)
	if edit == nil {
		t.Fatal("README.md does not require the package")
	}
	folder := t.TempDir()
	expect(t, os.WriteFile(filepath.Join(folder, "main.go"), []byte(program), 0o600))
	shell := exec.Command("sh", "-ec", "go mod init page\n"+string(edit[1])+"\n"+command)
	shell.Dir, shell.Env = folder, append(os.Environ(), "CLONE="+clone)
	output, err := shell.CombinedOutput()
	return string(output), err
}

// before has the imports, and the names that README.md's calls take.
const before = `package main

import (
	"bytes"
	"crypto"
	"crypto/sha256"
	"fmt"

	"pipitscreen.example/slh"
)

func main() {
	message, random := []byte("Dear reader,"), make([]byte, 16)
	sum := sha256.Sum256(message)
	digest := sum[:]
`

// TestReadme runs the calls of README.md as they stand. After each call it looks at the error.
func TestReadme(t *testing.T) {
	page, err := os.ReadFile("README.md")
	expect(t, err)
	blocks := block.FindAllSubmatch(page, -1)
	if len(blocks) != 4 {
		t.Fatal("README.md has other blocks", len(blocks))
	}
	program := before
	for _, it := range blocks {
		program += hasErr.ReplaceAllString(string(it[1]), "$0\nif err != nil { panic(err) }")
	}
	output, err := asUser(t, "go vet\ngo run .", program+"}\n")
	if printed := "\nSecretKey(SLH-DSA-SHA2-128f) PublicKey(SLH-DSA-SHA2-128f SHA256:"; err != nil ||
		!strings.Contains(output, printed) {
		t.Errorf("%v: %s", err, output)
	}
}

// TestVetReportsCopies has go vet look at a program that copies a secret key into a struct.
func TestVetReportsCopies(t *testing.T) {
	program := `package main

import (
	"log"

	"pipitscreen.example/slh"
)

type server struct {
	name string
	key  slh.SecretKey
}

func main() {
	key, err := slh.Generate(nil, slh.SHA2_128f)
	if err != nil {
		log.Fatal(err)
	}
	log.Printf("starting %v", server{"a", *key})
}
`
	output, err := asUser(t, "go vet", program)
	if err == nil || !strings.Contains(output, "literal copies lock value from *key: pipitscreen.example/slh.SecretKey") {
		t.Errorf("%v: %s", err, output)
	}
}
