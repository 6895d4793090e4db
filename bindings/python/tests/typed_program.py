"""A program over the package slh, for mypy --strict: tests/test_python.py. It isn't run."""

import pathlib

import slh
import slh.jobs
import slh.pkix


def sign_all(secret: slh.SecretKey, messages: list[bytes]) -> list[bytes]:
    with slh.Signer(workers=2, once=True, verify=True) as signer:
        return [signer.sign(secret, it, context=b"letters") for it in messages]


def judge(path: pathlib.Path, message: bytes, signature: bytes) -> bool:
    key = slh.load(path)
    if isinstance(key, slh.SecretKey):
        key = key.public()
    try:
        key.verify(message=message, signature=signature)
    except slh.Invalid:
        return False
    except slh.Refusal as refusal:
        print(refusal.number, refusal.name, refusal.expected)
        raise
    except (slh.Erased, slh.Fault) as fault:
        raise SystemExit(str(fault)) from fault
    return True


def may_start(name: str) -> bool:
    try:
        slh.self_test(name)
    except slh.SelfTestFailed:
        return False
    return True


def judge_all(public: slh.PublicKey, signed: dict[bytes, bytes]) -> bool:
    items = (slh.Signed(public, message, signature, b"letters") for message, signature in signed.items())
    verdicts: list[bool] = slh.verify_many(items)
    return all(verdicts)


def divide(message: bytes) -> bytes:
    secret = slh.SecretKey.generate(slh.Set.SLH_DSA_SHA2_128F)
    jobs = slh.jobs.Jobs(secret.set)
    start = jobs.start(secret, message)
    return jobs.join(secret, start, [jobs.answer(secret, start, it) for it in range(jobs.count)])


def convert(pem: bytes) -> slh.PublicKey:
    lengths: slh.Lengths = slh.Set("SLH-DSA-SHA2-128f").lengths
    print(lengths.signature, slh.version(), slh.Function.SLH_SHA2_256.digest_length)
    return slh.pkix.public_from_pem(pem)
