"""A program for `check_key_forms` of tests/key_forms.py, which says what it does."""
import sys

import slh
from slh import pkix

READ = {"public der": pkix.public_from_der, "public pem": pkix.public_from_pem, "secret der": pkix.secret_from_der,
        "secret pem": pkix.secret_from_pem}
WRITE = {"der": pkix.to_der, "pem": pkix.to_pem}

for line in sys.stdin:
    kind, form, digits = line.rstrip("\n").split(" ")
    try:
        key = READ[f"{kind} {form}"](bytes.fromhex(digits))
        print(int(key.set), WRITE[form](key).hex())
    except slh.Refusal as refusal:
        print(refusal.number)
