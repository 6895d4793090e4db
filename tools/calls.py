#!/usr/bin/env python3
"""Writes bindings/CALLS.md, the table of calls in each language, out of the headers and the packages.

usage: tools/calls.py            writes the page
       tools/calls.py --check    the status is 0 if the page is as it would be written

A row of ROWS names a subject and its words in each language. Each word has to be declared, and each public call of a
package has to be in a row: so a call that is new, renamed or gone is found. A language whose words are others than
those of the row needs a reason in REASONS. Each deprecated name has to be marked in its language's manner.
"""
import ast
import collections
import pathlib
import re
import sys

ROOT = pathlib.Path(__file__).resolve().parent.parent
PAGE = ROOT / "bindings/CALLS.md"
LANGUAGES = ("C", "C++", "Rust", "Go", "Python", "JavaScript", "Java")
NONE = "—"

# The subject, and by language the words that are declared. A word in parentheses belongs to the language's own library.
ROWS = [
    ("make a key of random bytes", NONE, "generate", "generate generate_from from_rng", "Generate", "generate",
     "generate", "(KeyPairGenerator.generateKeyPair)"),
    ("make the key of three seeds", "slh_keygen", "keygen", "keygen", "Keygen", "keygen", "keygen", "keygen"),
    ("check a secret key", "slh_check", "check", "check", "Check", "check", "check", "check"),
    ("test a set by known answers", "slh_self_test", "self_test", "self_test", "SelfTest", "self_test", "selfTest",
     "selfTest"),
    ("its public key", "slh_public", "public_key", "public", "PublicKey Public", "public", "public", "publicKey"),
    ("sign, computed two times", "slh_sign_twice", "sign", "sign sign_with sign_with_rng", "Sign", "sign", "sign",
     "(Signature.sign)"),
    ("sign, computed once", "slh_sign", "once", "once", "Once", "once", "once", "once"),
    ("the deprecated option for two computations", NONE, "twice", "twice", "Twice", "twice", "twice", "twice"),
    ("verify before release", NONE, "verify", "verify", "Verify", "verify", "verify", "verify verified"),
    ("sign without a randomizer", NONE, "deterministic", "Deterministic", "Deterministic", "deterministic",
     "deterministic", "deterministic"),
    ("sign in the pre-hash form", "slh_hash_sign_twice slh_hash_sign", "hash_sign", "hash_sign hash_sign_with_rng",
     "HashSign", "hash_sign", "hashSign", "withFunction"),
    ("sign a digest", "slh_hash_sign_digest_twice slh_hash_sign_digest", "hash_sign_digest", "hash_sign_digest",
     "HashSignDigest", "hash_sign_digest", "hashSignDigest", NONE),
    ("verify", "slh_verify", "verify", "verify verify_with", "Verify", "verify", "verify", "(Signature.verify)"),
    ("verify the pre-hash form", "slh_hash_verify", "hash_verify", "hash_verify", "HashVerify", "hash_verify",
     "hashVerify", "(Signature.verify)"),
    ("verify by a digest", "slh_hash_verify_digest", "hash_verify_digest", "hash_verify_digest", "HashVerifyDigest",
     "hash_verify_digest", "hashVerifyDigest", NONE),
    ("verify many", "slh_verify_many", "verify_many", "verify_many", "VerifyMany", "verify_many", "verifyMany",
     "verifyMany"),
    ("an item of these", "slh_signed", "Signed", "Signed", "Signed", "Signed", "Signed", "SlhSigned"),
    ("verify a message in pieces", "slh_verify_front slh_verify_hashed", NONE, NONE, NONE, NONE, NONE,
     "(Signature.update)"),
    ("verify in a boot loader", "slh_verify_hardened slh_hash_verify_digest_hardened", NONE, NONE, NONE, NONE, NONE,
     NONE),
    ("sign by several workers", NONE, NONE, "workers", "Workers", "Signer", NONE, NONE),
    ("sign in the background, until a signal ends it", NONE, NONE, NONE, NONE, NONE, "signInWorker", NONE),
    ("one signature as jobs", "slh_sign_jobs slh_sign_start slh_hash_sign_start slh_answer_place slh_sign_job"
     " slh_sign_join", NONE, NONE, NONE, "Jobs start answer join", NONE, NONE),
    ("one key as jobs", "slh_keygen_jobs slh_keygen_job slh_keygen_join", NONE, NONE, NONE, NONE, NONE, NONE),
    ("a secret key of bytes", NONE, "from_bytes", "from_bytes", "NewSecretKey", "SecretKey", "secretKey", "of"),
    ("a public key of bytes", NONE, "PublicKey", "from_bytes", "NewPublicKey", "PublicKey", "publicKey", "of"),
    ("the bytes of a key", NONE, "bytes", "as_bytes", "Bytes", "to_bytes", "toBytes", "toBytes getEncoded"),
    ("a second key of the same bytes", NONE, NONE, "duplicate", NONE, NONE, NONE, NONE),
    ("overwrite a key", "slh_erase", "(destructor)", "(drop)", "Erase Destroy", "erase", "erase", "destroy close"),
    ("read a key file", NONE, NONE, "load", "ReadSecretKeyFile ReadPublicKeyFile", "load",
     "loadSecretKey loadPublicKey", NONE),
    ("write a key file", NONE, NONE, "dump", "WriteFile", "dump", "dump", NONE),
    ("read the text of a key file", "slh_key_read", NONE, "read_from", "ParseSecretKey ParsePublicKey", "loads",
     "parseSecretKey parsePublicKey", NONE),
    ("write the text of a key file", "slh_key_write", NONE, "write_to", "MarshalKeyFile", "dumps", "format", NONE),
    ("read DER", "slh_der_read", NONE, "from_der", "ParsePKCS8SecretKey ParsePKIXPublicKey", "secret_from_der public_from_der",
     "secretKeyFromDer publicKeyFromDer", "(KeyFactory.generatePrivate)"),
    ("write DER", "slh_der_write", NONE, "write_der_to", "MarshalPKCS8 MarshalPKIX", "to_der", "toDer", "getEncoded"),
    ("read PEM", "slh_pem_read", NONE, "from_pem", "ParsePKCS8SecretKeyPEM ParsePKIXPublicKeyPEM",
     "secret_from_pem public_from_pem", "secretKeyFromPem publicKeyFromPem", "privateKey publicKey"),
    ("write PEM", "slh_pem_write", NONE, "write_pem_to", "MarshalPKCS8PEM MarshalPKIXPEM", "to_pem", "toPem", "encode"),
    ("the set of a key", NONE, "set", "set", "Set", "set", "set", "set"),
    ("a fingerprint", NONE, NONE, NONE, "(String)", "fingerprint", "fingerprint", "fingerprint"),
    ("lengths of a set", "slh_lengths", "Lengths", "(constants)", "Lengths", "lengths", "lengths",
     "publicKeyLength privateKeyLength signatureLength"),
    ("the name of a refusal", "slh_refusal_name", "name", "name", "Name", "name", "name", "name"),
    ("a sentence for a refusal", "slh_refusal_text", "text", "text", "(Error)", "(str)", "(message)",
     "(getMessage)"),
    ("the context", "ctx", "context", "context", "Context", "context", "context", "withContext"),
    ("the randomizer", "randomizer", "randomizer", "randomizer with_randomizer", "(io.Reader)", "randomizer",
     "randomizer", "(SecureRandom.nextBytes)"),
    ("the type of a refusal", NONE, "Error", "Refusal", "Refusal", "Refusal", "Refusal", "Refusal"),
    ("not valid", "SLH_INVALID", "(false)", "Invalid", "ErrInvalid", "Invalid", "(false)", "(false)"),
    ("two computations differ", "SLH_FAULT", "SLH_FAULT", "Fault", "ErrFault", "Fault", "Fault",
     "(java.security.SignatureException)"),
    ("another answer than the known one", "SLH_SELF_TEST_FAILED", "SLH_SELF_TEST_FAILED", "SelfTestFailed",
     "ErrSelfTestFailed", "SelfTestFailed", "SelfTestFailed", "Refusal"),
    ("use of an erased key", NONE, NONE, NONE, "ErrErased ErrDestroyed", "Erased", "Erased",
     "(java.lang.IllegalStateException)"),
    ("the version", "slh_version", NONE, "version", "Version", "version", "version", NONE),
    ("the level of the processor", "slh_level", NONE, NONE, NONE, NONE, NONE, NONE),
]
# The part that all words of a row share, for rows in which no single word is the usual one.
STEMS = {"one signature as jobs": "join", "read DER": "der", "write DER": "der", "read PEM": "pem", "write PEM": "pem",
         "overwrite a key": "erase", "read a key file": "load", "write the text of a key file": "write"}
X509 = "named as in `crypto/x509`"
OF_KEY = "one call makes a key of its bytes, as other types of the language are made"
IN_TEXT = "as the language's own modules for formats name it"
# Why a language has other words.
REASONS = {
    ("sign, computed once", "C"): "each way to sign is a call of its own",
    ("sign in the pre-hash form", "Java"): "a parameter of `Signature`, as in the JCA",
    ("sign by several workers", "Python"): "an object with a pool, which has to be closed",
    ("overwrite a key", "Java"): "`Destroyable` and `AutoCloseable` name the calls",
    ("a secret key of bytes", "Go"): OF_KEY, ("a secret key of bytes", "Python"): OF_KEY,
    ("a secret key of bytes", "JavaScript"): OF_KEY, ("a secret key of bytes", "Java"): OF_KEY,
    ("a public key of bytes", "Rust"): OF_KEY, ("a public key of bytes", "Java"): OF_KEY,
    ("the bytes of a key", "C++"): "a view of them, not a copy",
    ("the bytes of a key", "Rust"): "a borrow of them, not a copy",
    ("the bytes of a key", "Go"): "as `crypto/ecdh` names it",
    ("read a key file", "Go"): "as `os.ReadFile`", ("write a key file", "Go"): "as `os.WriteFile`",
    ("read the text of a key file", "C"): "one call for keys of both kinds",
    ("read the text of a key file", "Rust"): "named after `io::Read`",
    ("read the text of a key file", "Python"): IN_TEXT,
    ("write the text of a key file", "Go"): IN_TEXT, ("write the text of a key file", "Python"): IN_TEXT,
    ("write the text of a key file", "JavaScript"): "the opposite of `parse`",
    ("read DER", "Go"): X509, ("write DER", "Go"): X509, ("write DER", "Java"): "as `java.security.Key` names it",
    ("read PEM", "Java"): "calls of `SlhPem`", ("write PEM", "Java"): "a call of `SlhPem`",
    ("lengths of a set", "Java"): "three calls of `SlhSet`",
    ("another answer than the known one", "Java"): "a `Refusal` of the name `SelfTestFailed`",
    ("the context", "C"): "as FIPS 205 names it",
    ("the type of a refusal", "C++"): "thrown for 38 Fault, too, as Rust's `Error`",
}
# Names that differ from their siblings and stay: where, the name, its siblings, the reason, the file, and its text there.
KEPT = [
    ("C++", "SecretKey::from_bytes", "the constructor of `PublicKey`",
     "`PublicKey` is of bytes alone; three calls make a `SecretKey`, each with its name", "c/include/slh.hpp",
     "static SecretKey from_bytes("),
    ("Python", "secret_from_pem", "JavaScript's `secretKeyFromPem`",
     "a function of the module `pkix`: programs write `pkix.secret_from_pem`", "bindings/python/slh/pkix.py",
     "def secret_from_pem("),
    ("the program", "--random", "the packages' `randomizer`",
     "FIPS 205 names the value `addrnd`, additional randomness; scripts use `--random`",
     "crates/slh_tool/src/arguments.rt", "use --random and"),
    ("`slh.cnf`", "twice", "the packages' `once`",
     "the value of a setting can be read: services look for `twice=1` in the provider's build info",
     "bindings/openssl/slh.cnf.in", "twice = 1"),
]
# Deprecated names: the language, the name, the name to write instead, the file, and its mark in the language's manner.
# C++17 has none for a member of an aggregate: compilers would warn of each `Options`.
DEPRECATED = [
    ("C++", "Options::twice", "", "c/include/slh.hpp", r"bool twice = false; +/\* deprecated"),
    ("Rust", "Options::twice", "", "bindings/rust/slh/src/options.rs", r"#\[deprecated\(.*\)\]\n +pub twice:"),
    ("Rust", "Workers::twice", "", "bindings/rust/slh/src/jobs.rs", r"#\[deprecated\(.*\)\]\n +pub fn twice\("),
    ("Go", "Options.Twice", "", "bindings/go/options.go", r"// Deprecated: .*\n\tTwice bool"),
    ("Go", "Destroy", "Erase", "bindings/go/keys.go", r"// Deprecated: use Erase\. .*\nfunc \(.*\) Destroy\("),
    ("Go", "ErrDestroyed", "ErrErased", "bindings/go/slh.go", r"// Deprecated: use ErrErased\. .*\nvar ErrDestroyed"),
    ("Python", "twice", "", "bindings/python/slh/__init__.py", r"warnings\.warn\(.*`twice`.*, DeprecationWarning"),
    ("JavaScript", "twice", "", "bindings/javascript/slh.d.ts", r"@deprecated .*\n +\*/\n +twice\?:"),
    ("Java", "SlhSignatureSpec.twice", "", "bindings/java/src/pipitscreen/slh/SlhSignatureSpec.java",
     r"@deprecated .*\n +\*/\n +@Deprecated\n +public \w+ twice\("),
    ("Java", "SlhSignatureSpec.verified", "verify", "bindings/java/src/pipitscreen/slh/SlhSignatureSpec.java",
     r"@deprecated use verify: .*\n +\*/\n +@Deprecated\n +public \w+ verified\("),
]


def text_of(*patterns):
    """The text of the files of these patterns."""
    files = sorted(it for pattern in patterns for it in ROOT.glob(pattern))
    if not files:
        sys.exit(f"tools/calls.py: there is no {patterns}")
    return "".join(it.read_text() for it in files if not it.name.endswith("_test.go"))


def without_comments(text):
    return re.sub(r"/\*.*?\*/|//[^\n]*", "", text, flags=re.S)


def of_python():
    """The public functions, classes and arguments of the package for Python."""
    calls, words = set(), set()
    for file in ("__init__", "jobs", "pkix"):
        tree = ast.parse((ROOT / f"bindings/python/slh/{file}.py").read_text())
        classes = [it for it in tree.body if isinstance(it, ast.ClassDef)]
        scopes = [tree, *(it for it in classes if it.name == "_Key" or not it.name.startswith("_"))]
        for scope in scopes:
            for it in scope.body:
                if isinstance(it, (ast.FunctionDef, ast.ClassDef)) and not it.name.startswith("_"):
                    calls.add(it.name)
        words |= {it.arg for it in ast.walk(tree) if isinstance(it, ast.arg)}
        words |= {it.name for it in ast.walk(tree) if isinstance(it, ast.alias)}
    return calls, calls | words | {"name"}


def declared():
    """By language the public calls, and all words that are declared."""
    c = without_comments(text_of("c/include/slh.h", "c/include/slh_verify.h"))
    cpp = without_comments((ROOT / "c/include/slh.hpp").read_text())
    rust = without_comments(text_of("bindings/rust/slh/src/*.rs"))
    go = without_comments(text_of("bindings/go/*.go"))
    javascript = without_comments(text_of("bindings/javascript/*.d.ts"))
    java = without_comments(text_of("bindings/java/src/pipitscreen/slh/Slh*.java",
                                    "bindings/java/src/pipitscreen/slh/Refusal.java"))
    calls = {
        "C": set(re.findall(r"\b(slh_\w+)\(", c)),
        "C++": set(re.findall(r"^    (?:static |\[\[nodiscard\]\] )*(?:\w+::)?\w+ (\w+)\([^;]*\{", cpp, re.M)),
        "Rust": set(re.findall(r"^\s*pub (?:const )?fn (\w+)", rust, re.M))
        | set(re.findall(r"^    fn (\w+)\([^{;]*;", rust, re.M)),
        "Go": set(re.findall(r"^func (?:\(\w* ?\*?[A-Z]\w*\) )?([A-Z]\w*)", go, re.M)),
        "JavaScript": set(re.findall(r"^    (\w+)\(", javascript, re.M))
        | set(re.findall(r"^export (?:declare )?function (\w+)", javascript, re.M)),
        "Java": set(re.findall(r"^    public (?:static |synchronized )*[\w<>\[\]]+ (\w+)\(", java, re.M)),
    }
    words = {name: set(re.findall(r"\b[A-Za-z_]\w*\b", text)) for name, text in (
        ("C", c), ("C++", cpp), ("Rust", rust), ("Go", go), ("JavaScript", javascript), ("Java", java))}
    calls["Python"], words["Python"] = of_python()
    return calls, words


# Calls that a language's own rules ask for, or that are no work on keys and signatures.
OF_LANGUAGE = {
    "C": set(),
    "C++": {"call", "fail", "arguments", "system_random", "expect", "made", "Error"},
    "Rust": {"number", "expected", "given", "digest_len", "command"},
    "Go": {"Equal", "String", "Format", "Error", "HashFunc", "ParseSet"},
    "Python": {"label", "close", "Function", "Lengths", "Set", "digest_length"},
    "JavaScript": {"constructor", "load"},
    "Java": {"valueOf", "values", "toString", "equals", "hashCode", "getAlgorithm", "getFormat", "getParams",
             "isDestroyed", "number", "spec", "algorithm", "n", "withContext", "digest", "function", "initialize",
             "generateKeyPair"},
}


def words_of(cell):
    """The words of a cell that have to be declared."""
    return [] if cell == NONE else [it for it in re.sub(r"\([^)]*\)", "", cell).split()]


def plain(word):
    """A word without what languages write differently."""
    return word.removeprefix("slh_").replace("_", "").lower()


def other_words():
    """The subjects and the languages whose words are others than those of the row. Words of the language's own library
    are not looked at."""
    for subject, *cells in ROWS:
        words = [{plain(it) for it in words_of(cell)} for cell in cells]
        count = collections.Counter(it for cell in words for it in sorted(cell))
        stem = STEMS.get(subject) or max(count, key=count.get)
        for language, mine in zip(LANGUAGES, words):
            if mine and not any(stem in it for it in mine):
                yield subject, language


def unmarked():
    """The deprecated names without their mark."""
    return [f"{name} of {language} is not marked as deprecated in {path}"
            for language, name, _, path, mark in DEPRECATED if not re.search(mark, (ROOT / path).read_text())]


def gone():
    """The kept names that are no longer there."""
    return [f"{name} of {where} is not in {path}" for where, name, _, _, path, text in KEPT
            if text not in (ROOT / path).read_text()]


def faults():
    """What is wrong with ROWS: words that are not declared, or have no reason, and calls that no row has."""
    calls, words = declared()
    found = []
    for at, language in enumerate(LANGUAGES, 1):
        listed = {it for row in ROWS for it in words_of(row[at])}
        found += [f"{language} does not declare {it}" for it in sorted(listed - words[language])]
        found += [f"no row has {it} of {language}" for it in sorted(calls[language] - listed - OF_LANGUAGE[language])]
        found += [f"OF_LANGUAGE has {it}, which {language} does not declare"
                  for it in sorted(OF_LANGUAGE[language] - words[language] - {"valueOf", "values"})]
    found += [f"{language} has another word for {subject!r}: settle it, or give a reason in REASONS"
              for subject, language in other_words() if (subject, language) not in REASONS]
    found += [f"REASONS has {it}, whose word is no other" for it in sorted(set(REASONS) - set(other_words()))]
    return found + unmarked() + gone()


def cell_text(cell):
    if cell == NONE:
        return cell
    outside = re.findall(r"\(([^)]*)\)", cell)
    return ", ".join([f"`{it}`" for it in words_of(cell)] + [f"its `{it}`" if "." in it else it for it in outside])


def page():
    lines = [
        "# The calls in each language", "",
        "For programmers: what is the name of each call in my language? `tools/calls.py` writes this page from the",
        "headers and the packages. A test finds a call that is missing here, or no longer there.", "",
        "`its` marks a call of the language's own library. A dash means that the language has no such call.",
        "[Packages](README.md) has the rules that all packages share.", "",
        "| subject | " + " | ".join(LANGUAGES) + " |", "|" + (len(LANGUAGES) + 1) * "---|",
    ]
    for subject, *cells in ROWS:
        lines.append(f"| {subject} | " + " | ".join(map(cell_text, cells)) + " |")
    return "\n".join(lines + pages_end())


def pages_end():
    """The lines of the page behind the table of calls."""
    lines = ["", "## Other words", "", "These languages use another word than most:", "",
             "| subject | language | reason |", "|---|---|---|"]
    of_reason = collections.defaultdict(list)
    for (subject, language), reason in REASONS.items():
        of_reason[subject, reason].append(language)
    lines += [f"| {subject} | {', '.join(languages)} | {reason} |"
              for (subject, reason), languages in of_reason.items()]
    lines += ["", "Four names differ from those beside them, and stay:", "", "| where | name | beside it | reason |",
              "|---|---|---|---|"]
    lines += [f"| {where} | `{name}` | {sibling} | {reason} |" for where, name, sibling, reason, *_ in KEPT]
    lines += ["", "## Deprecated names", "",
              "They work as before. Two computations are the default, so omit `twice`. Each language marks the names",
              "as deprecated, and a test checks that. C++ marks in a comment: compilers would warn of each `Options`.",
              "", "| language | name | write instead |", "|---|---|---|"]
    lines += [f"| {language} | `{name}` | {f'`{new}`' if new else 'nothing'} |"
              for language, name, new, *_ in DEPRECATED]
    return [*lines, ""]


def main():
    if sys.argv[1:] not in ([], ["--check"]):
        print(__doc__.split("\n\n")[1], file=sys.stderr)
        sys.exit(2)
    found = faults()
    if found:
        sys.exit("\n".join(["tools/calls.py:", *found]))
    if not sys.argv[1:]:
        PAGE.write_text(page())
    elif not PAGE.is_file() or PAGE.read_text() != page():
        sys.exit("tools/calls.py: bindings/CALLS.md is not as it would be written: run tools/calls.py")


if __name__ == "__main__":
    main()
