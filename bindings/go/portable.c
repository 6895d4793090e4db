//go:build portable

/* The portable C, which tools/library.sh --target portable installs. */
#include <slh.c>
