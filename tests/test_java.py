"""Builds and uses the package for Java, over the library as it is installed: the jar, its own tests, the lines of its
README, keytool, what it leaves in memory, and a library that fails its self-test.

It takes a JDK of version 22 or later: that of JAVA_HOME, of the path or below /usr/lib/jvm. The tests of the package
over Bouncy Castle take BCPROV, or Debian's libbcprov-java."""
import os
import pathlib
import re
import shutil

import pytest

from key_forms import check_key_forms
from packages import check_memory, check_part, lines_of, text_of, write_another_library
from support import HERE, best_level, need, run, succeed

PACKAGE = HERE / "bindings/java"
README = (PACKAGE / "README.md").read_text()
VERSION = (HERE / "VERSION").read_text().strip()
ALLOWED = "--enable-native-access=ALL-UNNAMED"
# Its own tests, each as CLASS.METHOD.
OWN_TESTS = [f"{it.stem}.{name}" for it in sorted((PACKAGE / "tests").glob("?*Tests.java"))
             for name in re.findall(r"^    static void (\w+)\(\)", it.read_text(), re.M)]
# What Java's own interfaces have, and what enumerations have.
OF_JDK = "valueOf values getParams getAlgorithm getFormat equals hashCode toString isDestroyed close".split()
MODULE = """import java.security.Provider;
import java.util.ServiceLoader;

class Show {
    public static void main(String[] words) throws Exception {
        for (Provider it : ServiceLoader.load(Provider.class)) {
            if (it.getName().equals("Pipitscreen")) {
                System.out.println(it.getVersionStr() + " " + it.getClass().getModule().getName());
            }
        }
    }
}
"""
MAKE = "class Make { public static void main(String[] words) { new pipitscreen.slh.SlhProvider(); } }\n"
DIFFERS = """import java.security.*;
import pipitscreen.slh.*;

class Differs {
    @SuppressWarnings("deprecation")
    public static void main(String[] words) throws Exception {
        Provider provider = new SlhProvider();
        Signature signing = Signature.getInstance("SLH-DSA", provider);
        signing.initSign(KeyPairGenerator.getInstance("SLH-DSA", provider).generateKeyPair().getPrivate());
        SlhSignatureSpec plain = SlhSignatureSpec.DEFAULT;
        for (SlhSignatureSpec it : new SlhSignatureSpec[] {null, plain, plain.once(), plain.once().twice()}) {
            if (it != null) {
                signing.setParameter(it);
            }
            try {
                System.out.println(signing.sign().length);
            } catch (SignatureException fault) {
                Refusal refusal = (Refusal) fault.getCause();
                System.out.println(refusal.number() + " " + refusal.name());
            }
        }
    }
}
"""
# A library that flips a bit of PK.root in each new key.
OF_FLIPS = """#define _GNU_SOURCE
#include <dlfcn.h>
#include <slh.h>
uint32_t slh_keygen(uint32_t set, const uint8_t *a, size_t a_len, const uint8_t *b, size_t b_len, const uint8_t *c,
                    size_t c_len, uint8_t *sk, size_t sk_len) {
    __typeof__(slh_keygen) *right = (__typeof__(slh_keygen) *)dlsym(RTLD_NEXT, "slh_keygen");
    uint32_t result = right(set, a, a_len, b, b_len, c, c_len, sk, sk_len);
    sk[sk_len - 1] ^= 1;
    return result;
}
"""
FLIPS = """import java.security.*;
import pipitscreen.slh.*;

class Flips {
    public static void main(String[] words) throws Exception {
        byte[] seed = new byte[16];
        try {
            SlhPrivateKey.keygen(SlhSet.SHA2_128F, seed, seed, seed);
        } catch (InvalidKeyException fault) {
            System.out.println(((Refusal) fault.getCause()).name());
        }
        try {
            KeyPairGenerator.getInstance("SLH-DSA", new SlhProvider()).generateKeyPair();
        } catch (Refusal fault) {
            System.out.println(fault.name());
        }
    }
}
"""
SELF_TEST = """import pipitscreen.slh.*;

class SelfTest {
    public static void main(String[] words) {
        for (SlhSet set : new SlhSet[] {SlhSet.SHA2_192F, SlhSet.SHA2_128F}) {
            try {
                set.selfTest();
                System.out.println("passed");
            } catch (Refusal fault) {
                System.out.println(fault.number() + " " + fault.name());
            }
        }
    }
}
"""
LEVEL = """package pipitscreen.slh;
class Level { public static void main(String[] words) { System.out.println(Library.call("slh_level")); } }
"""

pytestmark = pytest.mark.slow


@pytest.fixture(scope="module")
def jdk():
    """The folder of the first JDK that has the foreign-function interface, with its programs first on the path."""
    beside = [os.environ["JAVA_HOME"] + "/bin/javac"] if os.environ.get("JAVA_HOME") else []
    beside += [it for it in [shutil.which("javac")] if it]
    for it in [*beside, *sorted(pathlib.Path("/usr/lib/jvm").glob("*/bin/javac"))]:
        version = re.match(rb"javac (\d+)", run(it, "-version").output) if os.access(it, os.X_OK) else None
        if version and int(version[1]) >= 22:
            return pathlib.Path(it).resolve().parent.parent
    pytest.skip("there is no JDK of version 22 or later (to be had by openjdk-25-jdk-headless of Debian 13)")


@pytest.fixture(scope="module")
def env(jdk):
    unset = "SLH_PREFIX", "JAVA_TOOL_OPTIONS"
    kept = {name: value for name, value in os.environ.items() if name not in unset}
    return {**kept, "LC_ALL": "C.UTF-8", "JAVA_HOME": str(jdk), "PATH": f"{jdk}/bin:{kept['PATH']}"}


@pytest.fixture(scope="module")
def build_jar(env, installed, tmp_path_factory):
    """Builds the jar in a new folder: its path."""

    def builds():
        jar = tmp_path_factory.mktemp("jar") / "slh.jar"
        succeed(PACKAGE / "build.sh", jar, env=env)
        return jar

    return builds


@pytest.fixture(scope="module")
def jar(build_jar):
    return build_jar()


@pytest.fixture(scope="module")
def java(env, installed):
    """The words that run a program over the classes of paths and a library."""

    def words(*paths, library=installed / "lib/libslh.so.1", options=("-Xmx512m",)):
        return ["java", *options, ALLOWED, f"-Dslh.library={library}", "-cp", ":".join(map(str, paths))]

    return words


@pytest.fixture(scope="module")
def classes(env, jar, tmp_path_factory):
    """The folder of the compiled tests of the package."""
    folder = tmp_path_factory.mktemp("classes")
    succeed("javac", "-Xlint:all,-restricted,-serial", "-Werror", "-d", folder, "-cp", jar,
            *sorted((PACKAGE / "tests").glob("*.java")),
            *(HERE / f"bindings/tests/{it}.java" for it in ("erased", "key_forms")), env=env)
    return folder


def test_jar_is_built_again_with_the_same_bits(jar, build_jar):
    assert jar.read_bytes() == build_jar().read_bytes()


# ---- its own tests


@pytest.fixture(scope="module")
def own_tests(chosen, java, jar, classes, env):
    """The lines of the package's own tests. One start of Java runs those that are selected: all without their names."""
    names = chosen("name")
    bcprov = os.environ.get("BCPROV", "/usr/share/java/bcprov.jar")
    openssl = os.environ.get("OPENSSL") or shutil.which("openssl-3.5", path=env["PATH"] + ":/usr/local/bin")
    options = ["-Xmx512m", f"-Drepository={HERE}", f"-Dopenssl={openssl or 'openssl'}"]
    lines = lines_of(*java(jar, classes, bcprov, options=options), "pipitscreen.slh.Tests",
                     *(names if len(names) < len(OWN_TESTS) else []), env=env, timeout=1800)
    said = dict(re.findall(r"^(\w+\.\w+): (yes|no|SKIPPED)", "\n".join(lines), re.M))
    assert {*said} == {*names}
    assert int(lines[-1].split()[0]) == list(said.values()).count("yes")
    return lines


@pytest.mark.parametrize("name", OWN_TESTS)
def test_package_passes_its_tests(own_tests, name):
    check_part(own_tests, f"{name}: ")


def test_changed_keys_of_other_programs_are_judged(java, env, jar, classes):
    check_key_forms(*java(jar, classes), "pipitscreen.slh.KeyForms", env=env)


@pytest.mark.usefixtures("built_by_the_kit")
def test_nothing_erased_is_in_memory(java, env, jar, classes, installed):
    library = installed / "lib/libslh.so.1"
    options = ["-Xmx64m", "-XX:+UseSerialGC"]
    check_memory(library, *java(jar, classes, options=options), "pipitscreen.slh.Erased", env=env)


@pytest.mark.usefixtures("built_by_the_kit")
def test_code_for_the_best_level_runs(java, env, jar, tmp_path):
    (tmp_path / "Level.java").write_text(LEVEL)
    succeed("javac", "-d", tmp_path, "-cp", jar, tmp_path / "Level.java", env=env)
    assert succeed(*java(jar, tmp_path), "pipitscreen.slh.Level", env=env).decode() == f"{best_level()}\n"


# ---- its README


def blocks(language):
    """The lines of README in a language."""
    return "".join(re.findall(rf"^```{language}\n(.*?)^```$", README, re.MULTILINE | re.DOTALL)).splitlines()


def test_program_of_the_page_runs(env, jar, installed, tmp_path):
    """README's program is compiled and run by README's commands, but for the one that installs the library."""
    home, folder = tmp_path / "home", tmp_path / "page"
    shutil.copytree(installed, home / "slh", symlinks=True)
    folder.mkdir()
    imports = [f"import {it}.*;" for it in ("java.security", "java.security.spec", "java.util")]
    lines = blocks("java")
    (folder / "Program.java").write_text("\n".join([
        *imports, *(it for it in lines if it.startswith("import ")), "class Program {",
        "public static void main(String[] words) throws Exception {",
        *(it for it in lines if not it.startswith("import ")), "}", "}", ""]))
    commands = [re.sub("^bindings", f"{HERE}/bindings", it) for it in blocks("sh") if "tools/library.sh" not in it]
    assert len(commands) == 3
    said = succeed("bash", "-e", "-c", "\n".join(commands), cwd=folder, env={**env, "HOME": str(home)}).decode()
    wanted = r"true\ntrue\nSLH-DSA-SHA2-128F private key, SLH-DSA-SHA2-128F, SHA256:[A-Za-z0-9+/]{43}\n"
    assert re.fullmatch(wanted, said), said


def test_page_names_each_public_call(env, jar):
    sources = PACKAGE / "src/pipitscreen/slh"
    public = [f"pipitscreen.slh.{it.stem}" for it in sources.glob("*.java")
              if re.search("^public", it.read_text(), re.MULTILINE)]
    listed = succeed("javap", "-public", "-cp", jar, *public, env=env).decode()
    names = set(re.findall(r"^.* class pipitscreen\.slh\.([A-Za-z]*)", listed, re.MULTILINE))
    names |= set(re.findall(r"^  public.* ([a-z]\w*)\(", listed, re.MULTILINE))
    assert len(names) > len(OF_JDK)
    assert [it for it in sorted(names - {*OF_JDK}) if not re.search(rf"\b{it}\b", README)] == []


# ---- the provider


def test_module_has_the_provider(env, jar, installed, tmp_path):
    """A program in a module of its own finds it by the module's description."""
    (tmp_path / "Show.java").write_text(MODULE)
    outcome = run("java", "--enable-native-access=pipitscreen.slh", f"-Dslh.library={installed}/lib/libslh.so.1", "-p",
                  jar, "--add-modules", "pipitscreen.slh", tmp_path / "Show.java", env=env)
    assert outcome[:2] == (0, f"{VERSION} pipitscreen.slh\n".encode()), text_of(outcome)


@pytest.fixture
def said_of(java, env, jar, tmp_path):
    """What the provider says of a library, with which it can't work."""
    (tmp_path / "Make.java").write_text(MAKE)

    def says(library):
        outcome = run(*java(jar, library=library), tmp_path / "Make.java", env=env)
        assert outcome.status != 0
        return text_of(outcome)

    return says


def test_missing_library_is_named(said_of, tmp_path):
    assert "set the property slh.library to the path" in said_of(tmp_path / "none.so")


@pytest.fixture
def shared(tmp_path):
    """Compiles C to a shared object: its path."""
    need("cc")

    def makes(text, *words):
        path = tmp_path / "libslh.so"
        succeed("cc", "-shared", "-fPIC", "-x", "c", "-", "-o", path, *words, stdin=text.encode())
        return path

    return makes


def version_of(change):
    """The number of a version whose first two numbers differ so from the package's."""
    return sum(part * (int(it) + more) for part, it, more in zip((1000000, 1000), VERSION.split("."), change))


@pytest.mark.parametrize("change", [(-1, 16), (1, 0)])
def test_library_of_another_major_version_is_named(said_of, shared, change):
    number = version_of(change)
    library = shared(f"unsigned slh_version(void) {{ return {number}; }}\n")
    text = f"is of version {number // 1000000}.{number // 1000 % 1000}.0, and not {VERSION} or a later one"
    assert text in said_of(library)


def test_library_of_a_later_minor_version_is_taken(java, env, jar, shared, tmp_path):
    """The provider is made over one that has no call but this."""
    library = shared(f"unsigned slh_version(void) {{ return {version_of((0, 1))}; }}\n")
    (tmp_path / "Make.java").write_text(MAKE)
    succeed(*java(jar, library=library), tmp_path / "Make.java", env=env)


@pytest.fixture
def over_the_library(installed):
    """The words that link a shared object, which brings some calls of its own, with the library."""
    return [f"-I{installed}/include", f"-L{installed}/lib", "-Wl,--no-as-needed", "-l:libslh.so.1",
            f"-Wl,-rpath,{installed}/lib", "-ldl"]


def test_signing_tells_a_difference_unless_it_is_once(java, env, jar, shared, over_the_library, tmp_path):
    """In a library in which both computations of a signature always differ."""
    library = shared("unsigned slh_sign_twice(void) { return 38; }\n", *over_the_library)
    (tmp_path / "Differs.java").write_text(DIFFERS)
    outcome = run(*java(jar, library=library), tmp_path / "Differs.java", env=env)
    assert outcome[:2] == (0, b"38 Fault\n38 Fault\n17088\n38 Fault\n"), text_of(outcome)


def test_new_key_with_a_wrong_bit_is_told(java, env, jar, shared, over_the_library, tmp_path):
    """A fault changes it while it is made. No key is given."""
    library = shared(OF_FLIPS, *over_the_library)
    (tmp_path / "Flips.java").write_text(FLIPS)
    outcome = run(*java(jar, library=library), tmp_path / "Flips.java", env=env)
    assert outcome[:2] == (0, b"Fault\nFault\n"), text_of(outcome)


def test_another_answer_of_the_library_is_told(java, env, jar, installed, tmp_path):
    """By the self-test of its set. That of another set passes."""
    (tmp_path / "SelfTest.java").write_text(SELF_TEST)
    another = write_another_library(installed, tmp_path)
    said = succeed(*java(jar, library=another / "lib/libslh.so.1"), tmp_path / "SelfTest.java", env=env)
    assert said == b"passed\n40 SelfTestFailed\n"


# ---- programs of the JDK


@pytest.fixture
def with_provider(jar, installed, tmp_path):
    """Two words for the virtual machine, and the words that name the store of keys."""
    store = ["-keystore", tmp_path / "keys.p12", "-storepass", "secret"]
    return [f"-J{ALLOWED}", f"-J-Dslh.library={installed}/lib/libslh.so.1"], store


@pytest.fixture
def keytool(with_provider, env, jar, tmp_path):
    """Runs keytool over a store of keys."""
    machine, store = with_provider

    def runs(*words):
        return succeed("keytool", *machine, "-providerpath", jar, "-providerclass", "pipitscreen.slh.SlhProvider",
                       *store, *words, cwd=tmp_path, env=env)

    return runs


def makes_ca():
    return ["-genkeypair", "-keyalg", "SLH-DSA-SHA2-128F", "-alias", "ca", "-dname", "CN=CA"]


def test_keytool_makes_certificates(keytool, oracle, tmp_path):
    """It makes keys, certificates and requests, which OpenSSL verifies, and takes OpenSSL's PKCS#12."""
    keytool(*makes_ca(), "-ext", "bc:c=ca:true")
    keytool("-genkeypair", "-keyalg", "SLH-DSA", "-groupname", "SLH-DSA-SHA2-192F", "-alias", "leaf", "-dname", "CN=A")
    keytool("-certreq", "-alias", "leaf", "-file", "leaf.csr")
    succeed(oracle, "req", "-in", tmp_path / "leaf.csr", "-noout", "-verify")
    keytool("-gencert", "-alias", "ca", "-infile", "leaf.csr", "-rfc", "-outfile", "leaf.pem")
    keytool("-exportcert", "-rfc", "-alias", "ca", "-file", "ca.pem")
    succeed(oracle, "verify", "-CAfile", tmp_path / "ca.pem", tmp_path / "leaf.pem")
    chain = (tmp_path / "leaf.pem").read_bytes() + (tmp_path / "ca.pem").read_bytes()
    (tmp_path / "chain.pem").write_bytes(chain)
    keytool("-importcert", "-noprompt", "-alias", "leaf", "-file", "chain.pem")
    succeed(oracle, "pkcs12", "-in", tmp_path / "keys.p12", "-passin", "pass:secret", "-nodes", "-out",
            tmp_path / "all.pem")
    assert (tmp_path / "all.pem").read_text().count("PRIVATE") == 4


def test_jarsigner_signs_by_none_of_these_keys(keytool, with_provider, env, jar, tmp_path):
    """It wants a digest in an algorithm's name."""
    machine, store = with_provider
    keytool(*makes_ca())
    shutil.copy(jar, tmp_path / "signed.jar")
    outcome = run("jarsigner", *machine, "-providerPath", jar, "-providerClass", "pipitscreen.slh.SlhProvider", *store,
                  tmp_path / "signed.jar", "ca", env=env)
    assert outcome.status != 0 and (tmp_path / "signed.jar").read_bytes() == jar.read_bytes(), text_of(outcome)
