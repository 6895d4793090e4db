"""Makes a key, signs a file and verifies the signature, and then writes it into FILE.sig and the public key, as a key
file of slh, into FILE.pub: python3 sign_file.py libslh.so FILE
So it verifies by: slh verify --key FILE.pub --message FILE --signature FILE.sig"""
import ctypes
import os
import pathlib
import sys

SET, LABEL = 2, "SLH-DSA-SHA2-128f"


def end(why):
    print(why, file=sys.stderr)
    sys.exit(2)


def call(name, *arguments):
    """Calls with each text of bytes as a pointer and a length. Returns SLH_DONE, SLH_INVALID, or a refusal's number."""
    words = []
    for it in arguments:
        if isinstance(it, int):
            words.append(ctypes.c_uint32(it))
        else:
            words += [it, ctypes.c_size_t(len(it))]
    function = getattr(library, name)
    function.restype = ctypes.c_uint32
    return function(*words)


def done(name, *arguments):
    result = call(name, *arguments)
    if result != 0:
        refusal = ctypes.create_string_buffer(20)
        call("slh_refusal_name", result, refusal)
        sys.exit(f"{name}: {result} {refusal.value.decode() or 'Invalid'}")


def drawn(count):
    """Random bytes in a buffer that can be erased, as those of os.urandom can't be."""
    made = ctypes.create_string_buffer(count)
    with open("/dev/urandom", "rb", buffering=0) as source:
        if source.readinto(made) != count:
            sys.exit("no random bytes")
    return made


if len(sys.argv) != 3:
    end("usage: python3 sign_file.py libslh.so FILE")
path = pathlib.Path(sys.argv[2])
try:
    library = ctypes.CDLL(os.path.abspath(sys.argv[1]))
    message = path.read_bytes()
except OSError as fault:
    end(fault)
lengths = [ctypes.c_size_t() for _ in range(4)]
if library.slh_lengths(SET, *map(ctypes.byref, lengths)) != 0:
    sys.exit("no such set")
pk_len, sk_len, sig_len, n = (it.value for it in lengths)
sk, pk, sig, scratch = (ctypes.create_string_buffer(it) for it in (sk_len, pk_len, sig_len, 2 * sig_len))
seeds = [drawn(n) for _ in range(3)]
try:
    done("slh_keygen", SET, *seeds, sk)
    done("slh_public", SET, sk, pk)
    # two times, which finds a fault of memory or the processor; an empty context, and a randomizer of n bytes
    done("slh_sign_twice", SET, sk, message, b"", os.urandom(n), scratch, sig)
finally:
    for it in [*seeds, sk]:
        library.slh_erase(it, ctypes.c_size_t(len(it)))
done("slh_verify", SET, pk, message, b"", sig)
path.with_name(path.name + ".sig").write_bytes(sig.raw)
path.with_name(path.name + ".pub").write_text(f"slh-dsa-public 2\n{LABEL}\n{pk.raw.hex()}\n")
print("valid")
