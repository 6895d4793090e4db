"""Signs a file as a COSE_Sign1 message (RFC 9052, section 4.2), or verifies one and prints its file:

    python3 cose_sign1.py sign ALG secret.key FILE > FILE.cose
    python3 cose_sign1.py verify ALG public.key FILE.cose > FILE

ALG is the number of the key's set in IANA's registry "COSE Algorithms". draft-ietf-cose-sphincs-plus asks for these
numbers, and this program knows none. The signature is of the pure form with an empty context, as in that draft. The
status is 1 if the signature is not valid, and 2 for all else. The program needs the package slh and python3-cbor2.
"""
import io
import pathlib
import sys

import cbor2
import slh

COSE_SIGN1 = 18  # the tag of such a message
ALG = 1  # the label of the algorithm in a header


def end(status, why):
    print(f"cose_sign1.py: {why}", file=sys.stderr)
    sys.exit(status)


def to_be_signed(protected, payload):
    """The Sig_structure of a message without external data (RFC 9052, section 4.4)."""
    return cbor2.dumps(["Signature1", protected, b"", payload])


def sign(alg, key, payload):
    protected = cbor2.dumps({ALG: alg})
    with slh.SecretKey.load(key) as secret:
        signature = secret.sign(to_be_signed(protected, payload))
    return cbor2.dumps(cbor2.CBORTag(COSE_SIGN1, [protected, {}, payload, signature]))


def parts_of(message):
    """The protected header, the payload and the signature."""
    file = io.BytesIO(message)
    found = cbor2.load(file)
    if file.read() or not isinstance(found, cbor2.CBORTag) or found.tag != COSE_SIGN1:
        end(2, "the file is no COSE_Sign1 message")
    if [type(it) for it in found.value] != [bytes, dict, bytes, bytes]:
        end(2, "the message has not a header, a payload and a signature")
    protected, _, payload, signature = found.value
    return protected, payload, signature


def verify(alg, key, message):
    """The payload of a message whose protected header has the algorithm and nothing else."""
    protected, payload, signature = parts_of(message)
    if protected != cbor2.dumps({ALG: alg}):
        end(2, f"the protected header is not the algorithm {alg} alone")
    slh.PublicKey.load(key).verify(message=to_be_signed(protected, payload), signature=signature)
    return payload


def main():
    tasks = {"sign": sign, "verify": verify}
    if len(sys.argv) != 5 or sys.argv[1] not in tasks:
        end(2, "usage: cose_sign1.py sign|verify ALG KEY FILE")
    task, alg, key, file = sys.argv[1:]
    try:
        done = tasks[task](int(alg), key, pathlib.Path(file).read_bytes())
    except slh.Invalid:
        end(1, "the signature is not valid")
    except Exception as fault:  # cbor2 raises many kinds, also RecursionError and MemoryError
        end(2, f"{type(fault).__name__}: {fault}")
    sys.stdout.buffer.write(done)


if __name__ == "__main__":
    main()
