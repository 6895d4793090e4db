"""Makes Debian packages by tools/debian.sh and tries them: they have no fault that lintian finds, damaged files are not
packaged, dpkg installs them into a root of its own, in which `slh` signs and programs are linked, and nothing is left
after they are removed. Man page and completions are the program's.

The root has this system's programs, by an overlay that unshare mounts; this system is not changed."""
import os
import pathlib
import re
import shutil

import pytest

import machines
from packages import text_of
from support import HERE, best_level, need, run, succeed

ENV = {**os.environ, "LC_ALL": "C.UTF-8"}


# ---- the packages


def make_packages(dist, folder, **options):
    """The outcome of tools/debian.sh over a release."""
    return run(HERE / "tools/debian.sh", dist, folder, env={**ENV, **options.pop("env", {})}, **options)


@pytest.fixture(scope="module")
def debs(release, tmp_path_factory):
    """The folder of the packages."""
    need("dpkg-deb", "dpkg-shlibdeps", "strip", "python3", "cc", "pkg-config", "openssl")
    folder = tmp_path_factory.mktemp("debian") / "debs"
    outcome = make_packages(release, folder)
    assert outcome.status == 0, text_of(outcome)[-3000:]
    return folder


def has_provider():
    """Whether OpenSSL 3.5 is here, over which the package slh-openssl is made."""
    return shutil.which("openssl-3.5") or run("pkg-config", "--atleast-version=3.5", "libcrypto").status == 0


def names_in(folder):
    return sorted(it.name.split("_")[0] for it in folder.iterdir())


def test_packages_are_made(debs):
    assert {"libslh-dev", "libslh1", "slh"} <= {*names_in(debs)} <= {"libslh-dev", "libslh1", "slh", "slh-openssl"}
    assert len(names_in(debs)) == len({*names_in(debs)})


def test_package_of_the_provider_is_made(debs):
    if not has_provider():
        assert "slh-openssl" not in names_in(debs)
        pytest.skip("there is no OpenSSL 3.5 (tools/setup.sh installs it as openssl-3.5)")
    assert "slh-openssl" in names_in(debs)


@pytest.mark.slow
def test_made_again_they_are_the_same_bits(release, debs, tmp_path):
    assert make_packages(release, tmp_path / "again").status == 0
    assert contents(debs) == contents(tmp_path / "again")


def contents(folder):
    return {it.name: it.read_bytes() for it in folder.iterdir()}


# ---- a package on its way


def is_whole(package, folder):
    """Whether a package can be unpacked, and has the files that it lists, each with its sum."""
    if run("dpkg-deb", "--raw-extract", package, folder).status:
        return False
    listed = {it.split("  ", 1)[1] for it in (folder / "DEBIAN/md5sums").read_text().splitlines()}
    files = {str(it.relative_to(folder)) for it in (folder / "usr").rglob("*") if it.is_file() and not it.is_symlink()}
    sums = run("md5sum", "--check", "--strict", "--status", "DEBIAN/md5sums", cwd=folder)
    return sums.status == 0 and listed == files != set()


def test_packages_are_whole(debs, tmp_path):
    assert [it.name for it in sorted(debs.iterdir()) if not is_whole(it, tmp_path / it.name)] == []


def place_in(data, member):
    """The middle of a member of an archive of `ar`."""
    at = 8
    while not data.startswith(member, at):
        length = int(data[at + 48:at + 58])
        at += 60 + length + length % 2
    return at + 60 + int(data[at + 48:at + 58]) // 2


@pytest.mark.parametrize("member", ["control.tar", "data.tar"])
def test_damaged_package_is_not_unpacked(debs, tmp_path, member):
    """One byte of it is another one."""
    package, = debs.glob("slh_*.deb")
    data = bytearray(package.read_bytes())
    data[place_in(data, member.encode())] ^= 1
    (tmp_path / "damaged.deb").write_bytes(data)
    assert is_whole(package, tmp_path / "whole") and not is_whole(tmp_path / "damaged.deb", tmp_path / "damaged")


# ---- no package of what is damaged


def append(folder, file):
    with open(folder / file, "ab") as it:
        it.write(b"\n")


def remove(folder, file):
    (folder / file).unlink()


def unlist(folder, file):
    sums = folder / "SHA256SUMS"
    lines = sums.read_text().splitlines(keepends=True)
    kept = [it for it in lines if it.split()[1] != file]
    assert len(kept) == len(lines) - 1
    sums.write_text("".join(kept))


@pytest.mark.slow
@pytest.mark.parametrize("change", [append, remove, unlist], ids=["a byte more", "missing", "not listed"])
@pytest.mark.parametrize("file", ["x86-64/slh", "x86-64-v4/slh", "x86-64/libslh.so.1", "x86-64-v3/libslh.a",
                                  "x86-64-v4/libslh.a", "x86-64-v2/libslh_verify.a", "include/slh.h"])
def test_damaged_file_is_not_packaged(release, tmp_path, file, change):
    shutil.copytree(release, tmp_path / "bad")
    change(tmp_path / "bad", file)
    outcome = make_packages(tmp_path / "bad", tmp_path / "none")
    assert outcome.status != 0 and f"{file} is missing or damaged" in outcome.errors.decode()
    assert names_in(tmp_path / "none") == []


@pytest.mark.slow
@pytest.mark.parametrize("tool", ["git", "date"])
def test_no_package_if_a_tool_fails(release, tmp_path, tool):
    """The date of the packages depends on both."""
    if tool == "git" and not (HERE / ".git").exists():
        pytest.skip("this is no clone (the date is of a file then, and needs no git)")
    stub = tmp_path / "stub" / tool
    stub.parent.mkdir()
    stub.write_text("#!/bin/sh\nexit 1\n")
    stub.chmod(0o755)
    env = {name: value for name, value in ENV.items() if name != "SOURCE_DATE_EPOCH"}
    outcome = run(HERE / "tools/debian.sh", release, tmp_path / "none",
                  env={**env, "PATH": f"{stub.parent}:{env['PATH']}"})
    assert outcome.status != 0 and names_in(tmp_path / "none") == []


@pytest.mark.slow
def test_maintainer_of_any_name_is_written(release, tmp_path):
    """Also one with words of sed."""
    named = {"DEBFULLNAME": r"Q&A / \1", "DEBEMAIL": "q@a.example"}
    assert make_packages(release, tmp_path / "named", env=named).status == 0
    (package,) = (tmp_path / "named").glob("slh_*.deb")
    assert succeed("dpkg-deb", "-f", package, "Maintainer").decode() == "Q&A / \\1 <q@a.example>\n"


@pytest.mark.slow
def test_lintian_finds_no_error(debs):
    need("lintian")
    succeed("lintian", "--fail-on", "error", *debs.glob("*.deb"), env=ENV)


@pytest.mark.slow
@pytest.mark.debian
def test_no_part_is_left_on_a_full_disk(in_a_root, release, tmp_path):
    script = 'mount -t tmpfs -o size=300k none "$2" || exit 3; "$0" "$1" "$2" && exit 4; [ -z "$(ls "$2")" ]'
    succeed("unshare", "-rm", "bash", "-c", script, HERE / "tools/debian.sh", release, tmp_path, env=ENV)


# ---- installed in a root

# dpkg does not ask whether libc6 and sse4.2-support are there: a test of apt does.
INSTALL = "dpkg -i --force-depends /debs/*.deb"
ROOT = """
mount -t tmpfs none "$0/over"
cd "$0/over"
mkdir -p root/{debs,sources,files,try,tmp,proc,dev} upper scratch
for it in usr etc var; do
    mkdir upper/$it scratch/$it root/$it
    mount -t overlay none -o "userxattr,lowerdir=/$it,upperdir=$PWD/upper/$it,workdir=$PWD/scratch/$it" root/$it
done
for it in bin sbin lib lib32 lib64; do [ ! -L /$it ] || cp -a /$it root/; done
mount --bind "$2" root/debs
mount --bind "$1" root/sources
mount --bind "$0/files" root/files
mount --rbind /proc root/proc
mount --rbind /dev root/dev
cp "$0/script" root/try/
exec chroot root /usr/bin/env -i PATH=/usr/sbin:/usr/bin:/sbin:/bin LC_ALL=C.UTF-8 bash -e -u -o pipefail \\
    -c "cd /try && . ./script"
"""


@pytest.fixture(scope="module")
def in_a_root(debs, tmp_path_factory):
    """Runs a script of bash in a root that has this one's programs, as overlays whose changes are gone afterwards. The
    packages are installed first, or are only in /debs. The repository is in /sources, and an image to verify in /files,
    as are copies of further folders by their names. The answer is the output."""
    need("unshare")
    work = tmp_path_factory.mktemp("root")
    (work / "over").mkdir()
    (work / "files").mkdir()
    machines.make_image(work / "files")

    def outcome_of(script):
        (work / "script").write_text(script)
        return run("unshare", "-rm", "bash", "-e", "-c", ROOT, work, HERE, debs)

    if outcome_of("true").status:
        pytest.skip("no overlay can be mounted (run it as root, outside of other overlays)")

    def runs(script, installs=True, **folders):
        for name, folder in folders.items():
            shutil.copytree(folder, work / "files" / name, dirs_exist_ok=True)
        outcome = outcome_of(f"{INSTALL} >&2\n{script}" if installs else script)
        assert outcome.status == 0, text_of(outcome)[-3000:]
        return outcome.output.decode()

    return runs


IN_A_ROOT = [pytest.mark.slow, pytest.mark.debian]


def installed_in_root(test):
    """Marks a test over installed packages."""
    for it in IN_A_ROOT:
        test = it(test)
    return test


SIGNS = """
[ "$(command -v slh)" = /usr/bin/slh ]
echo "Dear reader," > letter.txt
openssl rand -hex 48 > seeds
slh keygen --set SLH-DSA-SHA2-128f < seeds > secret.key
slh public --key secret.key > public.key
slh sign --key secret.key --message letter.txt > letter.sig
slh verify --key public.key --message letter.txt --signature letter.sig
echo >> letter.txt
slh verify --key public.key --message letter.txt --signature letter.sig && exit 3
exit 0
"""


@installed_in_root
def test_slh_signs_and_verifies(in_a_root):
    assert in_a_root(SIGNS) == "valid\ninvalid\n"


@installed_in_root
def test_slh_has_the_values_of_the_vectors(in_a_root):
    lines = in_a_root("slh vectors --file /sources/tests/vectors/smoke-128f.json").splitlines()
    assert lines[-1] == "passed 6 failed 0"


STUBS = """for level in v2 v3 v4; do
    printf '#!/bin/sh\\necho %s "$@"\\n' $level > /usr/lib/slh/x86-64-$level/slh
done
"""


@installed_in_root
@pytest.mark.parametrize("cpu, level", [pytest.param("", None, id="this one"), ("Nehalem", 2), ("Haswell", 3)])
def test_slh_runs_the_build_for_the_processor(in_a_root, cpu, level):
    """/usr/bin/slh gives it its words as they are."""
    if cpu:
        need("qemu-x86_64")
    before = f"qemu-x86_64 -cpu {cpu}" if cpu else ""
    said = in_a_root(f"{STUBS}{before} /usr/bin/slh 'a  b' c")
    assert said == f"v{level or best_level()} a  b c\n"


@installed_in_root
def test_pkg_config_has_the_version(in_a_root, release):
    version = re.search("^version (.*)$", (release / "BUILD").read_text(), re.MULTILINE)[1]
    assert in_a_root("pkg-config --modversion slh slh_verify") == f"{version}\n" * 2


@installed_in_root
def test_program_is_linked_with_the_shared_object(in_a_root):
    said = in_a_root("""cc -std=c99 -Wall -Werror /sources/examples/sign_file.c $(pkg-config --cflags --libs slh) -o it
echo "Dear reader," > letter.txt
./it letter.txt
ldd it""")
    assert said.startswith("valid\n") and "libslh.so.1 => /lib/x86_64-linux-gnu/libslh.so.1 " in said


@installed_in_root
@pytest.mark.parametrize("level", ["v2", "v3", "v4"])
def test_program_is_linked_with_the_archive_for_a_level(in_a_root, level):
    said = in_a_root(f"cc /sources/examples/sign_file.c -lslh-{level} -o it; ldd it")
    assert "libc.so" in said and "libslh" not in said


@installed_in_root
def test_program_that_verifies_is_linked_with_its_archive(in_a_root):
    said = in_a_root("""cc -I /files /sources/examples/verify_image.c $(pkg-config --cflags --libs slh_verify) -o it
ldd it
./it /files/image /files/image.sig
cp /files/image damaged && echo >> damaged
./it damaged /files/image.sig && exit 3
exit 0""")
    assert said.endswith("\nvalid\ninvalid\n") and "libslh" not in said


@installed_in_root
def test_openssl_signs_by_the_provider(in_a_root):
    """The command `openssl-3.5` finds the module, whose library is in the system's own folders. It needs no newer C
    library than the package says."""
    path = shutil.which("openssl-3.5", path=f"{os.environ['PATH']}:/usr/local/bin")
    if not path or not pathlib.Path(path).resolve().is_relative_to("/usr"):
        pytest.skip("openssl-3.5 is not in /usr (tools/setup.sh installs it there)")
    in_a_root("""modules=/usr/lib/x86_64-linux-gnu/ossl-modules
with="-provider-path $modules -provider default -provider slh -propquery ?provider=slh"
PATH=$PATH:/usr/local/bin
openssl-3.5 list -providers -provider-path $modules -provider slh | grep 'name: SLH-DSA by libslh'
echo "Dear reader," > letter.txt
openssl-3.5 genpkey $with -algorithm SLH-DSA-SHA2-128f -out key.pem
openssl-3.5 pkeyutl $with -sign -rawin -inkey key.pem -in letter.txt -pkeyopt workers:2 -out letter.sig
openssl-3.5 pkeyutl -verify -rawin -inkey key.pem -in letter.txt -sigfile letter.sig
readelf -d $modules/slh.so | grep -E 'R(UN)?PATH' && exit 3
most=$(readelf -V $modules/slh.so | grep -o 'GLIBC_2\\.[0-9]*' | sort -V | tail -n 1)
dpkg -s slh-openssl | grep -F "libc6 (>= ${most#GLIBC_})" """)


@installed_in_root
def test_programs_are_linked_by_find_package(in_a_root):
    need("cmake")
    said = in_a_root("""cmake -S /sources/bindings/cmake/tests -B built -DKEY=/files >&2
cmake --build built >&2
built/verify_image /files/image /files/image.sig
ldd built/calls_shared | grep -F 'libslh.so.1 => /'
ldd built/calls_slh""")
    lines = said.splitlines()
    assert lines[0] == "valid" and len([it for it in lines if "libslh" in it]) == 1 and "libc.so" in said


@installed_in_root
def test_nothing_is_left_when_they_are_removed(in_a_root):
    """More than 20 files are installed, and each is gone then, but for the cache of shared objects."""
    said = in_a_root(f"""listed() {{ {{ find /usr /etc 2> /dev/null || true; }} | grep -v '^/etc/ld.so.cache' | sort; }}
listed > before
{INSTALL} >&2
listed > installed
{{ diff before installed || true; }} | grep -c '^> .*slh'
dpkg --purge slh-openssl slh libslh-dev libslh1 >&2
listed | diff before -""", installs=False)
    assert int(said) > 20


# ---- the symbols file, and the package of the next number

NUMBER = int((HERE / "VERSION").read_text().split(".")[0]) + 1
NEXT = f"{NUMBER}.0.0"
UPGRADE = """build() { cc -std=c99 /sources/examples/sign_file.c $(pkg-config --cflags --libs slh) -o "$1"; }
{ find /usr /etc 2> /dev/null || true; } | grep -v '^/etc/ld.so.cache' | sort > before
dpkg -i --force-depends /debs/*.deb >&2
build old
dpkg -i --force-depends /files/next/*.deb >&2
build new
echo "Dear reader," > letter.txt
for it in old new; do
    ./$it letter.txt
    ldd $it | grep -o 'libslh.so.[0-9]*' | head -n 1
done
nm -D new | grep -o ' slh_verify.*'
dpkg-query -W -f '${Package} ${Version}\\n' 'libslh*' slh
dpkg --purge libslh1 >&2
./new letter.txt
./old letter.txt 2> /dev/null && exit 3
dpkg --purge $(dpkg-query -W -f '${Package}\\n' 'libslh*' 'slh*') >&2
{ find /usr /etc 2> /dev/null || true; } | grep -v '^/etc/ld.so.cache' | sort | diff before -
"""


def control_file(debs, pattern, name):
    (package,) = debs.glob(pattern)
    return succeed("bash", "-c", f'dpkg-deb --ctrl-tarfile "$0" | tar -xO ./{name}', package).decode()


def test_symbols_file_has_each_call(debs, release):
    """The version of each is at most that of the release."""
    need("nm")
    said = control_file(debs, "libslh1_*.deb", "symbols").splitlines()
    version = re.search("^version (.*)$", (release / "BUILD").read_text(), re.M)[1]
    exported = succeed("nm", "-D", "--defined-only", release / "x86-64/libslh.so.1").decode()
    names = [it.replace("@@", "@") for it in re.findall(r" [TW] (slh_\S+)", exported)]
    assert said[:2] == ["libslh.so.1 libslh1 #MINVER#", "* Build-Depends-Package: libslh-dev"]
    assert [it.split()[0] for it in said[2:]] == sorted(it if "@" in it else f"{it}@Base" for it in names)
    assert all(version_of(it.split()[1]) <= version_of(version) for it in said[2:])


def test_symbol_version_is_not_that_of_each_release():
    """Else a program would depend on the release that it was linked with, and not on the first with its calls."""
    major = NUMBER - 1
    assert f"\nSLH_{major} {major}.0.0\n" in (HERE / "bindings/debian/symbols.since").read_text()


def version_of(text):
    return tuple(map(int, text.split(".")))


@pytest.mark.parametrize("call, since", [("slh_verify", "0.5.0"), ("slh_sign_twice", "0.10.0"),
                                         ("slh_verify_front", "0.12.0")])
def test_program_depends_on_the_version_of_its_calls(debs, tmp_path, call, since):
    """As CHANGELOG names them. With symbol versions it is the first release that has these."""
    symbols = control_file(debs, "libslh1_*.deb", "symbols")
    if "@SLH_" in symbols:
        pytest.skip("the release has symbol versions, and depends on the first release with them")
    assert f" {call}@Base {since}\n" in symbols


@pytest.fixture(scope="module")
def next_debs(copy_of_module):
    """Packages of a stand-in for the release of the next number: this one's archive, linked anew in a copy of the
    repository whose file VERSION has that number."""
    need("cc")
    copy, shared = copy_of_module, copy_of_module.dist / f"x86-64/libslh.so.{NUMBER}"
    changes = copy.path / "CHANGELOG.md"
    if "## Unreleased" not in changes.read_text():
        changes.write_text(changes.read_text().replace("\n## ", "\n## Unreleased\n\nNumber.\n\n## ", 1))
    (copy.path / "VERSION").write_text(f"{NEXT}\n")
    succeed(copy.path / "tools/version.py")
    build = copy.dist / "BUILD"
    build.write_text(re.sub("^version .*$", f"version {NEXT}", build.read_text(), flags=re.M))
    (copy.work / "symbols").write_bytes(succeed(copy.path / "tools/symbols.sh"))
    (copy.dist / "x86-64/libslh.so.1").unlink()
    succeed("cc", "-shared", f"-Wl,-soname,{shared.name},--version-script={copy.work}/symbols,--whole-archive",
            copy.dist / "x86-64/libslh.a", "-Wl,--no-whole-archive", "-o", shared)
    copy.list_anew()
    succeed(copy.path / "tools/debian.sh", copy.dist, copy.work / "next", env=ENV)
    return copy.work / "next"


@pytest.mark.slow
def test_package_has_the_number_of_the_version(next_debs):
    package = f"libslh{NUMBER}"
    assert package in names_in(next_debs) and "libslh1" not in names_in(next_debs)
    symbols = control_file(next_debs, f"{package}_*.deb", "symbols")
    assert symbols.startswith(f"libslh.so.{NUMBER} {package} #MINVER#\n")
    assert f"\n slh_sign@SLH_{NUMBER} {NEXT}\n" in symbols


@installed_in_root
def test_upgrade_to_the_next_number(in_a_root, next_debs):
    """Programs of both numbers run side by side, until the old package is removed."""
    said = in_a_root(UPGRADE, installs=False, next=next_debs).splitlines()
    assert said[:4] == ["valid", "libslh.so.1", "valid", f"libslh.so.{NUMBER}"]
    assert {f" slh_verify@SLH_{NUMBER}", f"libslh{NUMBER} {NEXT}-1", f"libslh-dev {NEXT}-1"} <= {*said}
    assert [it for it in said if it.startswith("libslh1 ")] and said[-1] == "valid"


@pytest.mark.slow
def test_apt_would_install_them(debs):
    """It would find all that they need."""
    need("apt-get")
    if not run("apt-cache", "show", "sse4.2-support").output:
        pytest.skip("apt has no list of packages (apt-get update gets it)")
    said = succeed("apt-get", "install", "--simulate", *debs.glob("slh_*.deb"), *debs.glob("libslh*.deb"), env=ENV)
    found = re.findall("^Inst (slh|libslh1|libslh-dev) ", said.decode(), re.MULTILINE)
    assert sorted(found) == ["libslh-dev", "libslh1", "slh"]


# ---- man page and completions


@pytest.fixture(scope="module")
def unpacked(debs, tmp_path_factory):
    """The files of the package slh."""
    folder = tmp_path_factory.mktemp("unpacked")
    succeed("dpkg", "-x", *debs.glob("slh_*.deb"), folder)
    return folder


@pytest.fixture(scope="module")
def commands(unpacked):
    """The commands of `slh --help`, each with the options that its help lists."""
    program = unpacked / "usr/lib/slh/x86-64-v2/slh"
    listed = re.search(r"^Commands:\n(.*?)\n\n", succeed(program, "--help").decode(), re.MULTILINE | re.DOTALL)[1]
    names = [it for it in re.findall("^  ([a-z]+) ", listed, re.MULTILINE) if it != "help"]
    helps = {it: succeed(program, it, "--help").decode() for it in names}
    found = {it: options_in(text) for it, text in helps.items()}
    assert len(found) > 5 and sum(map(len, found.values())) > 30
    return found


def options_in(text):
    """The options that a help lists, in its order."""
    return re.findall("^ +(?:-[hV], )?(--[a-z-]+)", text, re.MULTILINE)


@pytest.fixture(scope="module")
def man_page(unpacked):
    """The text of the man page. man has to find no fault in it."""
    need("man")
    page = unpacked / "usr/share/man/man1/slh.1.gz"
    outcome = run("man", "--warnings", "-l", page, env={**ENV, "MANWIDTH": "120"})
    assert outcome.status == 0 and outcome.errors == b""
    return outcome.output.decode()


@pytest.mark.slow
def test_man_page_has_each_command_and_option(man_page, commands):
    parts = dict(re.findall(r"^   ([a-z]+)$\n(.*?)(?=^   [a-z]|^[A-Z])", man_page, re.MULTILINE | re.DOTALL))
    missing = [(name, it) for name, options in commands.items() for it in options
               if not re.search(rf"^ +(-h, )?{it}( |$)", parts.get(name, ""), re.MULTILINE)]
    assert missing == []


@pytest.mark.slow
@pytest.mark.parametrize("line", ["^ *slh - keys and signatures", "^DESCRIPTION$", "^EXAMPLES$", "^EXIT STATUS$",
                                  "^REFUSALS$", "^ *38 Fault"])
def test_man_page_has(man_page, line):
    assert re.search(line, man_page, re.MULTILINE)


@pytest.fixture
def in_bash(unpacked, tmp_path):
    """What bash completes the last of these words to, in a folder that has a file `secret key`."""
    need("bash")
    (tmp_path / "secret key").touch()
    script = 'source "$0"; COMP_WORDS=(slh "$@"); COMP_CWORD=$#; _slh 2>/dev/null; printf "%s\\n" "${COMPREPLY[@]}"'
    file = unpacked / "usr/share/bash-completion/completions/slh"
    return lambda *words: [it for it in succeed("bash", "-c", script, file, *words, cwd=tmp_path).decode().split("\n")
                           if it]


@pytest.mark.slow
def test_bash_completes_commands_and_options(in_bash, unpacked, commands):
    of_program = options_in(succeed(unpacked / "usr/lib/slh/x86-64-v2/slh", "--help").decode())
    assert "--help" in of_program
    assert in_bash("") == [*commands, "help", *of_program]
    assert {it: in_bash(it, "--") for it in commands} == commands


@pytest.mark.slow
@pytest.mark.parametrize("line, wanted", [
    ("ver", ["verify"]),
    ("help|ver", ["verify"]),
    ("sign|--me", ["--message"]),
    ("sign|--key|secret", ["secret key"]),
    ("keygen|--set|SLH-DSA-SHA2-25", ["SLH-DSA-SHA2-256s", "SLH-DSA-SHA2-256f"]),
    ("verify|--prehash|SHA2-512", ["SHA2-512", "SHA2-512/224", "SHA2-512/256"]),
    ("sign|--workers|", []),
])
def test_bash_completes(in_bash, line, wanted):
    assert in_bash(*line.split("|")) == wanted


# Zsh completes a line by its own completions, in a terminal.
OF_ZSH = """zmodload zsh/zpty
zpty shell zsh -f -i
zpty -w shell 'PS1=; fpath=({functions} $fpath); autoload -Uz compinit; compinit -u -D'
zpty -w shell 'show() {{ print -r -- "<<$BUFFER>>" }}; zle -N show; bindkey "^X" show; print read""y'
zpty -r -m shell found '*ready*'
zpty -n -w shell $'{line}\\t\\x18'
zpty -r -m shell found '*<<*>>*'
print -r -- ${{${{found##*<<}}%%>>*}}
"""


@pytest.fixture
def in_zsh(unpacked, tmp_path):
    need("zsh")
    if run("zsh", "-f", "-c", "zmodload zsh/zpty && zpty probe true").status:
        pytest.skip("zsh can open no pseudo-terminal (mount devpts at /dev/pts)")
    (tmp_path / "public_key.h").touch()
    functions = unpacked / "usr/share/zsh/vendor-completions"

    def completes(line):
        script = OF_ZSH.format(functions=functions, line=line)
        return succeed("zsh", "-f", stdin=script.encode(), cwd=tmp_path).decode().removesuffix("\n")

    return completes


@pytest.mark.slow
@pytest.mark.parametrize("line, wanted", [
    ("slh ver", "slh verify "),
    ("slh help ver", "slh help verify "),
    ("slh sign --me", "slh sign --message "),
    ("slh keygen --set x --wo", "slh keygen --set x --workers "),
    ("slh sign --prehash SHA2-22", "slh sign --prehash SHA2-224 "),
    ("slh check --key public_k", "slh check --key public_key.h "),
])
def test_zsh_completes(in_zsh, line, wanted):
    assert in_zsh(line) == wanted
