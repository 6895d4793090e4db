//go:build go1.21

package slh_test

import (
	"io"
	"log/slog"
)

func init() {
	writers["slog text"] = func(it any) string {
		return streamed(func(to io.Writer) error {
			slog.New(slog.NewTextHandler(to, nil)).Info("starting", "key", it, slog.Group("more", "key", it))
			return nil
		})
	}
	writers["slog JSON"] = func(it any) string {
		return streamed(func(to io.Writer) error {
			slog.New(slog.NewJSONHandler(to, nil)).Info("starting", "key", it, slog.Group("more", "key", it))
			return nil
		})
	}
}
