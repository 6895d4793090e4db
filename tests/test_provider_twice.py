"""Tests that OpenSSL's provider signs by two computations that are compared, unless its caller says `twice` 0, and that
it checks new keys. A library that is preloaded counts the calls of libslh, and flips a bit of what they write."""
import os

import pytest

from support import HERE, run, succeed

# Counts calls, and flips a bit of what the call of a number writes. FLIPS is that number, and 0 for none.
PRELOADED = r"""
#define _GNU_SOURCE
#include <dlfcn.h>
#include <slh.h>
#include <stdatomic.h>
#include <stdio.h>
#include <stdlib.h>

static atomic_uint count;

/* The call of this name in libslh, which is not among the libraries of the program: the provider loads it. */
static void *right_of(const char *name) { return dlsym(dlopen(getenv("LIBSLH"), RTLD_NOW), name); }

/* Counts a call, and returns whether what it wrote is changed. */
static int is_flipped(void) { return atomic_fetch_add(&count, 1) + 1 == (unsigned)atoi(getenv("FLIPS")); }

__attribute__((destructor)) static void tell(void) {
    FILE *file = fopen(getenv("COUNTED"), "w");
    fprintf(file, "%u", atomic_load(&count));
    fclose(file);
}

#ifdef KEYS
uint32_t slh_keygen(uint32_t set, const uint8_t *a, size_t a_len, const uint8_t *b, size_t b_len, const uint8_t *c,
                    size_t c_len, uint8_t *sk, size_t sk_len) {
    __typeof__(slh_keygen) *right = (__typeof__(slh_keygen) *)right_of("slh_keygen");
    uint32_t result = right(set, a, a_len, b, b_len, c, c_len, sk, sk_len);
    if (is_flipped()) sk[sk_len - 1] ^= 1;
    return result;
}
#else
uint32_t slh_sign_job(uint32_t set, uint32_t xmss, uint32_t fors, const uint8_t *sk, size_t sk_len,
                      const uint8_t *start, size_t start_len, uint32_t job, uint8_t *answer, size_t answer_len) {
    __typeof__(slh_sign_job) *right = (__typeof__(slh_sign_job) *)right_of("slh_sign_job");
    uint32_t result = right(set, xmss, fors, sk, sk_len, start, start_len, job, answer, answer_len);
    if (is_flipped()) answer[answer_len - 1] ^= 1;
    return result;
}
#endif
"""
JOBS = 55  # of a signature of the set 128f, one for each tree
FLIPPED = JOBS + 22  # the first XMSS tree's job, in the second run


@pytest.fixture(scope="session")
def prefix(oracle, installed, tmp_path_factory):
    """The library and the provider, installed."""
    folder = tmp_path_factory.mktemp("provider") / "prefix"
    succeed("cp", "-a", installed, folder)
    done = run(HERE / "bindings/openssl/build.sh", folder)
    if done.status == 3:
        pytest.skip("there are no headers of OpenSSL 3.5 (tools/setup.sh installs them)")
    assert done.status == 0, done.errors.decode()
    return folder


@pytest.fixture(scope="session")
def preloaded(prefix, compiled, tmp_path_factory):
    """The libraries that change answers of jobs, and new keys."""
    text = tmp_path_factory.mktemp("preloaded") / "preloaded.c"
    text.write_text(PRELOADED)
    words = "-D_FORTIFY_SOURCE=0", "-O1", "-Wall", "-Wextra", "-Werror", "-shared", "-fPIC", "-I", prefix / "include"
    return {name: compiled(f"{name}.so", f"-D{name}", *words, text, "-ldl") for name in ("JOBS", "KEYS")}


@pytest.fixture
def openssl(oracle, prefix, preloaded, tmp_path):
    """Runs `openssl` over the provider: openssl(LIBRARY, FLIPS, WORD..) is its Outcome and the count of calls."""
    counted = tmp_path / "counted"

    def runs(library, flips, *words, config=prefix / "etc/slh.cnf"):
        counted.write_text("0")
        environment = {**os.environ, "OPENSSL_CONF": str(config), "COUNTED": str(counted), "FLIPS": str(flips)}
        if library:
            environment.update(LD_PRELOAD=str(preloaded[library]), LIBSLH=str(prefix / "lib/libslh.so.1"))
        return run(oracle, *words, env=environment, cwd=tmp_path), int(counted.read_text())

    return runs


@pytest.fixture
def signs(openssl, tmp_path):
    """Signs by `openssl pkeyutl`: signs(FLIPS, OPTION..) is the Outcome and the count of jobs."""
    made, _ = openssl(None, 0, "genpkey", "-algorithm", "SLH-DSA-SHA2-128f", "-out", "key.pem")
    assert made.status == 0, made.errors.decode()
    (tmp_path / "letter").write_bytes(b"Dear reader,")

    def runs(flips, *options, **named):
        words = "pkeyutl", "-sign", "-rawin", "-inkey", "key.pem", "-in", "letter", "-out", "letter.sig", *options
        (tmp_path / "letter.sig").unlink(missing_ok=True)
        return openssl("JOBS", flips, *words, **named)

    return runs


def signed(folder):
    path = folder / "letter.sig"
    return path.stat().st_size if path.exists() else 0


def test_a_bit_that_flips_is_a_fault(signs, tmp_path):
    for flips in (1, JOBS, FLIPPED):
        outcome, _ = signs(flips)
        assert outcome.status != 0 and b"a job had two answers, by a fault" in outcome.errors
        assert signed(tmp_path) == 0


def test_a_signature_is_computed_two_times_unless_the_caller_says_once(signs, tmp_path):
    for options, wanted in (((), 2 * JOBS), (("-pkeyopt", "twice:1"), 2 * JOBS), (("-pkeyopt", "twice:0"), 0)):
        outcome, jobs = signs(0, *options)
        assert (outcome.status, jobs, signed(tmp_path)) == (0, wanted, 17088), (options, outcome)


def test_one_computation_is_had_by_the_configuration(prefix, signs, tmp_path):
    text = (prefix / "etc/slh.cnf").read_text()
    for twice, wanted in (("1", 2 * JOBS), ("0", 0), (None, 2 * JOBS)):
        config = tmp_path / "other.cnf"
        line = f"twice = {twice}\n" if twice else ""
        config.write_text(text.replace("twice = 1\n", line).replace("twice=1", f"twice={twice or 1}"))
        outcome, jobs = signs(0, config=config)
        assert (outcome.status, jobs, signed(tmp_path)) == (0, wanted, 17088), (twice, outcome)


def test_workers_do_each_job_two_times(signs, tmp_path):
    outcome, jobs = signs(0, "-pkeyopt", "workers:4")
    assert (outcome.status, jobs, signed(tmp_path)) == (0, 2 * JOBS, 17088)


def test_a_new_key_with_a_wrong_bit_is_not_given(openssl, tmp_path):
    words = "genpkey", "-algorithm", "SLH-DSA-SHA2-128f", "-out", "new.pem"
    for flips, status in ((0, 0), (1, 1)):
        outcome, calls = openssl("KEYS", flips, *words)
        path = tmp_path / "new.pem"
        assert (outcome.status, calls) == (status, 1), outcome
        assert (path.exists() and path.stat().st_size > 0) == (status == 0)
        path.unlink(missing_ok=True)
    assert b"the key that was made is wrong, by a fault" in outcome.errors
