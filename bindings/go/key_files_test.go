// Tests of key files, by the rows of the program's own tests.

package slh_test

import (
	"bufio"
	"bytes"
	"encoding/json"
	"errors"
	"fmt"
	"io/fs"
	"os"
	"os/exec"
	"path/filepath"
	"runtime"
	"strings"
	"testing"

	"pipitscreen.example/slh"
)

func expect(t *testing.T, err error) {
	t.Helper()
	if err != nil {
		t.Fatal(err)
	}
}

// latin1 are bytes that stand in JSON as the characters 00 to ff.
type latin1 []byte

func (it *latin1) UnmarshalJSON(text []byte) error {
	var characters string
	if err := json.Unmarshal(text, &characters); err != nil {
		return err
	}
	for _, character := range characters {
		*it = append(*it, byte(character))
	}
	return nil
}

// A row is a command line of tests/vectors/commands, as tests/test_commands.py reads it.
type row struct {
	Words          []string
	Status         int
	Errors, Output string
	Write          map[string]latin1
	Keep           string
	Cut, Put, Flip []any
	Add            []any
}

// keyFile returns the bytes of the row's key file, and nil if there is none. Files of rows before it are in a folder.
func (it row) keyFile(t *testing.T, folder map[string]latin1) []byte {
	t.Helper()
	for name, text := range it.Write {
		folder[name] = text
	}
	name := ""
	for at, word := range it.Words {
		if word == "--key" {
			name = it.Words[at+1]
		}
	}
	if _, ok := folder[name]; !ok {
		return nil
	}
	text := append([]byte{}, folder[name]...)
	switch {
	case it.Cut != nil && it.Cut[0] == name:
		return text[:int(it.Cut[1].(float64))]
	case it.Put != nil && it.Put[0] == name:
		for at, character := range []rune(it.Put[2].(string)) {
			text[int(it.Put[1].(float64))+at] = byte(character)
		}
	case it.Flip != nil && it.Flip[0] == name:
		text[int(it.Flip[1].(float64))] ^= 0x80
	case it.Add != nil && it.Add[0] == name:
		return append(text, it.Add[1].(string)...)
	}
	return text
}

// isSecret reports whether a command of the row takes a secret key.
func (it row) isSecret(text []byte) bool {
	switch it.Words[0] {
	case "verify":
		return false
	case "upgrade":
		return bytes.HasPrefix(text, []byte("slh-dsa-secret"))
	default:
		return true
	}
}

// load reads a key file's text, and returns the text of a file of version 2 with that key, or the refusal.
func load(text []byte, isSecret bool) (string, error) {
	var again []byte
	secret, err := slh.ParseSecretKey(text)
	if isSecret && err == nil {
		again, err = secret.MarshalKeyFile()
	}
	public, publicErr := slh.ParsePublicKey(text)
	if !isSecret && publicErr == nil {
		again, publicErr = public.MarshalKeyFile()
	}
	if isSecret {
		return string(again), err
	}
	return string(again), publicErr
}

// rowsOf calls a function with each row of a table that has a key file.
func rowsOf(t *testing.T, table string, call func(line int, it row, text []byte)) {
	t.Helper()
	file, err := os.Open(filepath.Join("../../tests/vectors/commands", table))
	if err != nil {
		t.Fatal(err)
	}
	defer file.Close()
	lines, folder := bufio.NewScanner(file), map[string]latin1{}
	lines.Buffer(nil, 1<<20)
	for line := 1; lines.Scan(); line++ {
		var it row
		if strings.HasPrefix(lines.Text(), "#") {
			continue
		}
		if err := json.Unmarshal(lines.Bytes(), &it); err != nil {
			t.Fatal(table, line, err)
		}
		if text := it.keyFile(t, folder); text != nil {
			call(line, it, text)
		}
		if it.Keep != "" {
			folder[it.Keep] = latin1(it.Output)
		}
	}
}

// TestKeyFilesOfTheProgram reads the key files of the program's tests. The package does not know sets that the standard
// does not have, so it refuses their files, which the program takes, as UnknownSet.
func TestKeyFilesOfTheProgram(t *testing.T) {
	counts := map[string]int{}
	for _, table := range []string{"damaged_keys.jsonl", "other_keys.jsonl", "versions.jsonl"} {
		rowsOf(t, table, func(line int, it row, text []byte) {
			var number uint32
			var name string
			fmt.Sscanf(it.Errors, "slh: %d %s", &number, &name)
			if bytes.Contains(text, []byte("\ncustom:")) {
				number, name = 12, "UnknownSet"
			}
			again, err := load(text, it.isSecret(text))
			counts[name]++
			if number < 11 || number > 15 {
				if err != nil || it.Words[0] == "upgrade" && again != it.Output {
					t.Errorf("%s line %d: %v, %q", table, line, err, again)
				}
				return
			}
			var refusal slh.Refusal
			if !errors.As(err, &refusal) || uint32(refusal) != number || refusal.Name() != name || again != "" {
				t.Errorf("%s line %d: %v, and not %s", table, line, err, it.Errors)
			}
		})
	}
	for _, name := range []string{"NotAKeyFile", "UnknownSet", "BadHex", "BadKeyLength", "TrailingBytes", ""} {
		if counts[name] < 5 {
			t.Error("too few rows of", name, counts)
		}
	}
}

var sets = []slh.Set{slh.SHA2_128s, slh.SHA2_128f, slh.SHA2_192s, slh.SHA2_192f, slh.SHA2_256s, slh.SHA2_256f}

// TestKeyFilesHaveTheirSet writes and reads keys of each set, and refuses a file of the other kind.
func TestKeyFilesHaveTheirSet(t *testing.T) {
	for _, set := range sets {
		lengths, err := set.Lengths()
		expect(t, err)
		key := make([]byte, lengths.SecretKey)
		for at := range key {
			key[at] = byte(7 * at)
		}
		secret, err := slh.NewSecretKey(set, key)
		expect(t, err)
		folder := t.TempDir()
		path, publicPath := filepath.Join(folder, "secret.key"), filepath.Join(folder, "public.key")
		expect(t, secret.WriteFile(path))
		expect(t, secret.PublicKey().WriteFile(publicPath))
		again, err := slh.ReadSecretKeyFile(path)
		if err != nil || again.Set() != set || !again.Equal(secret) {
			t.Error(set, err)
		}
		public, err := slh.ReadPublicKeyFile(publicPath)
		if err != nil || public.Set() != set || !public.Equal(secret.PublicKey()) {
			t.Error(set, err)
		}
		if _, err := slh.ReadPublicKeyFile(path); !errors.Is(err, slh.NotAKeyFile) {
			t.Error("a secret file is a public one", err)
		}
		if _, err := slh.ReadSecretKeyFile(publicPath); !errors.Is(err, slh.NotAKeyFile) {
			t.Error("a public file is a secret one", err)
		}
	}
}

// TestFilesAreNew writes secret files that nobody else may read, over no other file.
func TestFilesAreNew(t *testing.T) {
	secret, folder := generate(t), t.TempDir()
	path, publicPath := filepath.Join(folder, "secret.key"), filepath.Join(folder, "public.key")
	expect(t, secret.WriteFile(path))
	expect(t, secret.PublicKey().WriteFile(publicPath))
	if about, err := os.Stat(path); err != nil || about.Mode().Perm() != 0o600 {
		t.Error(about, err)
	}
	before, err := os.ReadFile(path)
	expect(t, err)
	for _, write := range []func(string) error{generate(t).WriteFile, secret.PublicKey().WriteFile} {
		if err := write(path); !errors.Is(err, fs.ErrExist) {
			t.Error(err)
		}
	}
	if after, err := os.ReadFile(path); err != nil || !bytes.Equal(before, after) {
		t.Error("a file that exists has changed", err)
	}
	if err := secret.WriteFile(filepath.Join(folder, "none", "secret.key")); !errors.Is(err, fs.ErrNotExist) {
		t.Error(err)
	}
	secret.Erase()
	if err := secret.WriteFile(filepath.Join(folder, "destroyed.key")); err != slh.ErrErased {
		t.Error(err)
	}
	if names, err := os.ReadDir(folder); err != nil || len(names) != 2 {
		t.Error(names, err)
	}
}

// TestFilesThatAreNoKeys reads folders, missing, long and damaged files.
func TestFilesThatAreNoKeys(t *testing.T) {
	folder := t.TempDir()
	if _, err := slh.ReadSecretKeyFile(folder); err == nil || errors.As(err, new(slh.Refusal)) {
		t.Error("a folder:", err)
	}
	if _, err := slh.ReadPublicKeyFile(filepath.Join(folder, "none")); !errors.Is(err, fs.ErrNotExist) {
		t.Error(err)
	}
	head := "slh-dsa-secret 2\nSLH-DSA-SHA2-128f\n"
	for text, wanted := range map[string]slh.Refusal{
		"":                                    slh.NotAKeyFile,
		strings.Repeat("\x00", 1<<20):         slh.NotAKeyFile,
		head + strings.Repeat("0", 1<<20):     slh.BadKeyLength,
		head + strings.Repeat("0", 128):       0,
		head + strings.Repeat("0", 130):       slh.BadKeyLength,
		head + strings.Repeat("0", 127):       slh.BadKeyLength,
		head + strings.Repeat("0", 127) + "g": slh.BadHex,
		head + strings.Repeat("0", 128) + "\n" + strings.Repeat("0", 1<<20): slh.TrailingBytes,
	} {
		path := filepath.Join(folder, "key")
		expect(t, os.WriteFile(path, []byte(text), 0o600))
		if _, err := slh.ReadSecretKeyFile(path); wanted == 0 && err != nil || wanted != 0 && !errors.Is(err, wanted) {
			t.Errorf("%.60q: %v, and not %v", text, err, wanted)
		}
	}
	_, err := slh.ParseSecretKey([]byte(head + "00"))
	if wanted := "slh: 14 BadKeyLength: a secret key of SLH-DSA-SHA2-128f has 128 digits, not 2"; err == nil ||
		err.Error() != wanted {
		t.Error(err)
	}
	for _, key := range []func() ([]byte, error){new(slh.SecretKey).MarshalKeyFile, new(slh.PublicKey).MarshalKeyFile} {
		if text, err := key(); err != slh.NoSuchSet || text != nil {
			t.Error(err)
		}
	}
}

// TestTheOtherKindAndOtherSetsComeFirst refuses a file of the other kind, or of a set that only the program has, as
// such, whatever else is wrong with it. libslh reads these, and names the other fault.
func TestTheOtherKindAndOtherSetsComeFirst(t *testing.T) {
	refused := func(text string, isSecret bool, wanted slh.Refusal) {
		t.Helper()
		if again, err := load([]byte(text), isSecret); !errors.Is(err, wanted) || again != "" {
			t.Errorf("%q: %v, and not %v", text, err, wanted)
		}
	}
	for _, isSecret := range []bool{false, true} {
		kind, other, digits := "public", "secret", strings.Repeat("0", 64)
		if isSecret {
			kind, other, digits = other, kind, digits+digits
		}
		for _, end := range []string{digits, digits + "\n", digits + "\n\n", digits + "g", "00", "g", ""} {
			for _, version := range []string{"1", "2"} {
				refused("slh-dsa-"+other+" "+version+"\nSLH-DSA-SHA2-128f\n"+end, isSecret, slh.NotAKeyFile)
			}
			refused("slh-dsa-"+kind+" 2\ncustom:16,4,3,22,6,34\n"+end, isSecret, slh.UnknownSet)
			refused("slh-dsa-"+other+" 2\ncustom:16,4,3,22,6,34\n"+end, isSecret, slh.NotAKeyFile)
		}
		refused("slh-dsa-"+other+" 2\n", isSecret, slh.NotAKeyFile)
		refused("slh-dsa-"+kind+" 2\n", isSecret, slh.UnknownSet)
		refused("slh-dsa-"+kind+" 2\nc\n", isSecret, slh.UnknownSet)
	}
}

// program runs ./slh of the repository, and returns its output. It finds no rt, by which it might build itself first.
func program(t *testing.T, input string, words ...string) string {
	t.Helper()
	command := exec.Command("../../slh", words...)
	command.Stdin, command.Env = strings.NewReader(input), append(os.Environ(), "PATH=/usr/bin:/bin")
	output, err := command.Output()
	if err != nil {
		t.Fatalf("slh %v: %v: %s", words, err, output)
	}
	return string(output)
}

// TestKeyFilesAndTheProgram has the program read files of the package, and the other way round.
func TestKeyFilesAndTheProgram(t *testing.T) {
	if runtime.GOOS != "linux" || runtime.GOARCH != "amd64" {
		t.Skip("the program is for Linux on x86-64")
	}
	folder := t.TempDir()
	path := func(name string) string { return filepath.Join(folder, name) }
	for _, set := range sets {
		secret, err := slh.Generate(nil, set)
		expect(t, err)
		expect(t, secret.WriteFile(path("secret")))
		expect(t, secret.PublicKey().WriteFile(path("public")))
		written, err := os.ReadFile(path("public"))
		expect(t, err)
		if program(t, "", "check", "--key", path("secret")) != "consistent\n" ||
			program(t, "", "public", "--key", path("secret")) != string(written) ||
			program(t, "", "upgrade", "--key", path("public")) != string(written) {
			t.Error(set, "is read otherwise")
		}
		expect(t, os.Remove(path("secret")))
		expect(t, os.Remove(path("public")))
	}
	for _, set := range sets {
		lengths, err := set.Lengths()
		expect(t, err)
		seeds := strings.Repeat("0123456789ABCDEF", 6*lengths.N/16)
		text := program(t, seeds, "keygen", "--set", set.String())
		secret, err := slh.ParseSecretKey([]byte(text))
		expect(t, err)
		again, err := secret.MarshalKeyFile()
		if err != nil || string(again) != text || secret.Set() != set || secret.Check() != nil {
			t.Error(set, "is read otherwise", err)
		}
	}
}
