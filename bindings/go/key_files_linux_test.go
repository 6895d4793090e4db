// A test of key files that needs Linux, whose writes it has the system refuse.

package slh_test

import (
	"errors"
	"os"
	"os/signal"
	"path/filepath"
	"syscall"
	"testing"
)

// TestNothingStaysOfAFileThatFails has the system refuse the last bytes of a key file.
func TestNothingStaysOfAFileThatFails(t *testing.T) {
	signal.Ignore(syscall.SIGXFSZ)
	var before syscall.Rlimit
	expect(t, syscall.Getrlimit(syscall.RLIMIT_FSIZE, &before))
	defer syscall.Setrlimit(syscall.RLIMIT_FSIZE, &before)
	secret, folder := generate(t), t.TempDir()
	path := filepath.Join(folder, "key")
	expect(t, syscall.Setrlimit(syscall.RLIMIT_FSIZE, &syscall.Rlimit{Cur: 60, Max: before.Max}))
	for _, write := range []func(string) error{secret.WriteFile, secret.PublicKey().WriteFile} {
		if err := write(path); !errors.Is(err, syscall.EFBIG) {
			t.Error(err)
		}
		if _, err := os.Stat(path); !errors.Is(err, os.ErrNotExist) {
			t.Error("a part of a file stays", err)
		}
	}
	expect(t, syscall.Setrlimit(syscall.RLIMIT_FSIZE, &before))
	expect(t, secret.WriteFile(path))
}
