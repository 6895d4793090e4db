"""Takes keys and signatures of the six sets to and from Botan and Bouncy Castle, and tests the package for Java, in a
new Debian 13: Debian 12 has no versions of these with SLH-DSA. The keys are read and written by the packages for Python
and Java and by examples/convert_key.c, and the signatures are the package's for Python.

    pytest --all tests/test_debian_keys.py

It takes 1.2 GB in out/tests and some minutes, and downloads 180 MB the first time.
"""
import shutil

import pytest

from support import HERE, passed_by

PROGRAMS = ["openssl", "openjdk-25-jdk-headless", "libbcprov-java", "botan", "python3-pytest", "gcc", "libc6-dev"]
COPIED = ["tests", "tools", "pytest.ini", "examples", "bindings", "docs", "VERSION", "LICENSE-APACHE", "LICENSE-MIT"]
BY_SET = pytest.mark.parametrize("of_set", ["128s", "128f", "192s", "192f", "256s", "256f"])

# The packages: for Python a folder, for C a program, for Java a jar, with a program that also makes keys of Bouncy
# Castle.
BUILD = """
mkdir -p made/site && cp -r bindings/python/slh made/site/ && cp prefix/lib/libslh.so.1 made/site/slh/
cc -std=c99 -O1 examples/convert_key.c -I prefix/include prefix/lib/libslh.a -o made/convert_key
bindings/java/build.sh made/slh.jar
javac -d made -cp made/slh.jar:$bcprov made/Keys.java
"""
KEYS = r"""
import java.nio.file.*;
import java.security.*;
import java.util.Base64;
import pipitscreen.slh.*;

class Keys {
    /** `secret FILE` and `public FILE` read a key in PEM and write it; `bouncy SET` makes keys as they are there. */
    public static void main(String[] words) throws Exception {
        if (words[0].equals("bouncy")) {
            makes(words[1].toUpperCase());
            return;
        }
        byte[] text = Files.readAllBytes(Path.of(words[1]));
        System.out.writeBytes(words[0].equals("secret") ? SlhPem.encode(SlhPem.privateKey(text))
                : SlhPem.encode(SlhPem.publicKey(text)));
    }

    /** The private key has the public one inside. */
    static void makes(String set) throws Exception {
        Provider it = new org.bouncycastle.jce.provider.BouncyCastleProvider();
        KeyPair pair = KeyPairGenerator.getInstance("SLH-DSA-SHA2-" + set, it).generateKeyPair();
        write("PRIVATE", "bouncy.pem", pair.getPrivate());
        write("PUBLIC", "public.pem", pair.getPublic());
    }

    static void write(String kind, String name, Key key) throws Exception {
        String text = Base64.getMimeEncoder(64, new byte[] {10}).encodeToString(key.getEncoded());
        Files.writeString(Path.of(name), "-----BEGIN " + kind + " KEY-----\n" + text + "\n-----END " + kind
                + " KEY-----\n");
    }
}
"""
# Reads secret.pem and public.pem by the package for Python, which has to write the same bytes.
READ = """\
import pathlib
from slh import pkix
secret, public = (pathlib.Path(f"{it}.pem").read_bytes() for it in ("secret", "public"))
key = pkix.secret_from_pem(secret)
key.check()
assert pkix.public_from_pem(public) == key.public()
assert pkix.to_pem(key) == secret and pkix.to_pem(key.public()) == public
"""
# Makes a key by the package for Python.
MAKE = """\
import pathlib, slh, sys
from slh import pkix
key = slh.SecretKey.generate(f"SLH-DSA-SHA2-{sys.argv[1]}")
pathlib.Path("secret.pem").write_bytes(pkix.to_pem(key))
pathlib.Path("public.pem").write_bytes(pkix.to_pem(key.public()))
"""
# Verifies a signature of letter.txt in base64, and makes another: THEIRS OURS.
SIGN = """\
import base64, pathlib, sys
from slh import pkix
theirs, ours, letter = pathlib.Path(sys.argv[1]), pathlib.Path(sys.argv[2]), pathlib.Path("letter.txt").read_bytes()
key = pkix.secret_from_pem(pathlib.Path("secret.pem").read_bytes())
pkix.public_from_pem(pathlib.Path("public.pem").read_bytes()).verify(
    message=letter, signature=base64.b64decode(theirs.read_bytes()))
ours.write_bytes(base64.b64encode(key.sign(letter)))
"""
# What the cases have in common. They run with `bash -e`, each in a folder of its own.
SHARED = """
bcprov=/usr/share/java/bcprov.jar
export PYTHONPATH=/slh/made/site
by_java() {
    SLH_PREFIX=/slh/prefix java -Xmx256m -XX:TieredStopAtLevel=1 --enable-native-access=ALL-UNNAMED \\
        -cp "/slh/made/slh.jar:/slh/made:$bcprov" Keys "$@"
}
# Reads secret.pem and public.pem by each package, and has it write the same bytes.
is_read_by_all() {
    for kind in secret public; do
        /slh/made/convert_key $kind.pem >$kind.key
        /slh/made/convert_key --pem $kind.key | cmp - $kind.pem
        by_java $kind $kind.pem | cmp - $kind.pem
    done
    python3 /slh/made/read.py
}
# What Botan says of a signature of ours. Its status is 0 in any case.
botan_says() { botan verify --hash= public.pem letter.txt ours.sig | grep -x "Signature is $1"; }
"""
OF_BOTAN = """
botan keygen --algo=SLH-DSA "--params=SLH-DSA-SHA2-$1" >secret.pem
botan pkcs8 --pub-out secret.pem >public.pem
is_read_by_all
botan sign --hash= secret.pem letter.txt >botan.sig
python3 /slh/made/sign.py botan.sig ours.sig
botan_says valid
echo "Dear writer," >letter.txt
botan_says invalid
"""
FOR_BOTAN = """
python3 /slh/made/make.py "$1"
botan pkcs8 secret.pem | cmp - secret.pem
botan pkcs8 --pub-out secret.pem | cmp - public.pem
botan sign --hash= secret.pem letter.txt >botan.sig
python3 /slh/made/sign.py botan.sig ours.sig
botan_says valid
"""
# Its public key is read as it is. Its private one is refused, and read after the command that the refusal names.
OF_BOUNCY_CASTLE = """
by_java bouncy "$1"
! /slh/made/convert_key bouncy.pem 2>said || exit 1
grep -q 'openssl pkey -in FILE -out NEW' said
openssl pkey -in bouncy.pem -out secret.pem
is_read_by_all
"""


@pytest.fixture(scope="module")
def root(debian, installed):
    """A Debian 13 with the packages, built."""
    made = debian("trixie", *PROGRAMS)
    for it in COPIED:
        copies = shutil.copytree if (HERE / it).is_dir() else shutil.copy
        copies(HERE / it, made.top / "slh" / it)
    shutil.copytree(installed, made.top / "slh/prefix", symlinks=True)
    work = made.top / "slh/made"
    work.mkdir()
    for name, text in {"Keys.java": KEYS, "read.py": READ, "make.py": MAKE, "sign.py": SIGN}.items():
        (work / name).write_text(text)
    made.succeed("bash", "-e", "-c", SHARED + BUILD)
    return made


@pytest.fixture
def passes(root):
    """Runs a case for a set in a new folder with a letter."""

    def runs(case, of_set):
        begin = 'folder=$(mktemp -d) && cd "$folder" && echo "Dear reader," >letter.txt\n'
        root.succeed("bash", "-e", "-o", "pipefail", "-c", SHARED + begin + case, "case", of_set)

    return runs


@BY_SET
def test_keys_and_signatures_of_botan(passes, of_set):
    passes(OF_BOTAN, of_set)


@BY_SET
def test_our_keys_and_signatures_by_botan(passes, of_set):
    passes(FOR_BOTAN, of_set)


@BY_SET
def test_keys_of_bouncy_castle(passes, of_set):
    passes(OF_BOUNCY_CASTLE, of_set)


def test_package_for_java(root):
    assert passed_by(root.run("pytest", "-p", "no:cacheprovider", "--prefix=/slh/prefix", "tests/test_java.py"))
