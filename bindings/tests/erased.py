"""A program for `check_memory` of tests/packages.py, which says what it does."""
import os
import sys
import tempfile

import slh
from slh import pkix

MESSAGE, FUNCTION, DIGEST = b"letter", slh.Function.SLH_SHA2_256, bytes(32)
HOW = {"deterministic": True}


def dump_and_load(key):
    """Writes the key into a file, reads it from there and from bytes, and drops what it has read."""
    with tempfile.TemporaryDirectory() as folder:
        path = os.path.join(folder, "secret.key")
        key.dump(path)
        with slh.SecretKey.load(path) as again:
            again.check()
        assert slh.load(path) == key
        try:
            slh.PublicKey.load(path)
        except slh.Refusal as refusal:
            assert refusal.name == "NotAKeyFile"
        with open(path, "r+b") as file:
            file.write(bytes(os.path.getsize(path)))
    text = key.dumps()
    assert slh.SecretKey.loads(text) == key
    text[:] = bytes(len(text))
    for write, read in ((pkix.to_pem, pkix.secret_from_pem), (pkix.to_der, pkix.secret_from_der)):
        text = write(key)
        assert read(text) == key
        text[:] = bytes(len(text))
    data = key.to_bytes()
    assert slh.SecretKey(key.set, data) == key
    data[:] = bytes(len(data))


with slh.SecretKey.generate(slh.Set.SLH_DSA_SHA2_128F) as secret:
    print("".join(f"{byte ^ 0x5a:02x}" for byte in secret._memory.view()), flush=True)
    sys.stdin.readline()
    secret.check()
    public = secret.public()
    made = [secret.sign(MESSAGE, **HOW), secret.sign(MESSAGE, once=True, verify=True, **HOW)]
    for once in (False, True):
        secret.hash_sign(FUNCTION, MESSAGE, once=once)
        secret.hash_sign_digest(FUNCTION, DIGEST, once=once)
    for workers, once in ((1, False), (3, False), (1, True), (3, True)):
        with slh.Signer(workers, once=once, verify=once) as signer:
            signer.hash_sign(secret, FUNCTION, MESSAGE)
            made.append(signer.sign(secret, MESSAGE, **HOW))
    for signature in made:
        public.verify(message=MESSAGE, signature=signature)
    dump_and_load(secret)
print("erased", flush=True)
sys.stdin.read()
