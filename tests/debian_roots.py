"""Minimal Debian systems in folders, by debootstrap: what the fixture `debian` makes. Downloaded packages stay in
~/.cache/slh for the next run."""
import os
import pathlib
import re
import shutil

import pytest

from support import need, run, succeed

CACHE = pathlib.Path(os.environ.get("XDG_CACHE_HOME") or pathlib.Path.home() / ".cache") / "slh"
PATH = "/usr/local/sbin:/usr/local/bin:/usr/sbin:/usr/bin:/sbin:/bin"
OF_APT = "^Acquire::(http|https|ftp|Check|Retries)"
# Runs a command in the folder /slh of the system in $0/root. With a base $1 that system is a layer over the base. $2 is
# the folder of downloaded packages. The remaining words are the environment and the command.
ENTER = """
[ -z "$1" ] || mount -t overlay none -o "lowerdir=$1,upperdir=$0/upper,workdir=$0/work" "$0/root"
mount -t proc proc "$0/root/proc"
mount --rbind /dev "$0/root/dev"
mount --rbind /sys "$0/root/sys"
mount --bind "$2" "$0/root/var/cache/apt/archives"
shift 2
exec chroot "$0/root" /usr/bin/env -i -C /slh "$@"
"""


def os_release():
    return dict(it.split("=", 1) for it in pathlib.Path("/etc/os-release").read_text().splitlines() if "=" in it)


def need_roots():
    """Skips the test if no system can be made here."""
    if os_release().get("ID") != "debian":
        pytest.skip("this is not Debian (it takes its debootstrap, and its mirror)")
    need("apt-get", "debootstrap", "wget", "unshare")
    if os.getuid() != 0:
        pytest.skip("this is not root (debootstrap takes root)")
    if run("unshare", "-mpf", "true").status:
        pytest.skip("unshare is refused (run this outside of a container)")


def proxied():
    """The environment, with the proxy of this machine's apt."""
    said = re.fullmatch(r"proxy='(.*)'\s*", succeed("apt-config", "shell", "proxy", "Acquire::http::Proxy").decode())
    return {**os.environ, **({"http_proxy": said[1]} if said else {})}


def suites(name):
    """The addresses and suites of this machine's apt that its mirror has for another release of Debian."""
    own = os_release()["VERSION_CODENAME"]
    said = succeed("apt-get", "indextargets", "--format", "$(REPO_URI) $(RELEASE)", "Created-By: Packages",
                   "Origin: Debian").decode()
    pairs = {tuple(it.split()) for it in said.splitlines()}
    return sorted((address, name + suite.removeprefix(own)) for address, suite in pairs
                  if suite.startswith(own) and is_on_mirror(address, name + suite.removeprefix(own)))


def is_on_mirror(address, suite):
    words = ["wget", "-q", "--spider", "--timeout=20", "--tries=2", f"{address.rstrip('/')}/dists/{suite}/Release"]
    return run(*words, env=proxied()).status == 0


class Root:
    """A system in a folder, of a release of Debian; over a base, as a layer that is removed with the folder."""

    def __init__(self, folder, name, base=""):
        self.folder, self.debs, self.base = folder, CACHE / f"debs-{name}", base
        (self.debs / "partial").mkdir(parents=True, exist_ok=True)
        for it in ("root", "upper", "work"):
            (folder / it).mkdir(parents=True)
        self.top = folder / ("upper" if base else "root")
        (self.top / "slh").mkdir()

    def run(self, *words, **options):
        """Runs a command in its folder /slh."""
        kept = [f"{it}={value}" for it, value in proxied().items() if it in ("http_proxy", "https_proxy", "no_proxy")]
        env = ["HOME=/root", "TERM=dumb", "LC_ALL=C.UTF-8", f"PATH={PATH}", *kept]
        enter = ["unshare", "-mpf", "--kill-child", "bash", "-e", "-c", ENTER, self.folder, self.base, self.debs]
        return run(*enter, *env, *words, **{"timeout": 7200, **options})

    def succeed(self, *words, **options):
        """The output of a command that has to end with 0."""
        done = self.run(*words, **options)
        assert done.status == 0, (done.output + done.errors)[-4000:].decode(errors="replace")
        return done.output

    def install(self, *packages):
        self.succeed("apt-get", "-q", "update")
        self.succeed("env", "DEBIAN_FRONTEND=noninteractive", "apt-get", "-q", "-y", "--no-install-recommends",
                     "install", *packages)


def make_base(folder, name, packages):
    """Makes a minimal system with some packages."""
    addresses = suites(name)
    mirror = [address for address, suite in addresses if suite == name]
    if not mirror:
        pytest.skip(f"the mirror of this machine's apt has no {name} (name another one in its sources)")
    made = Root(folder, name)
    (made.top / "slh").rmdir()
    succeed("debootstrap", "--variant=minbase", f"--cache-dir={made.debs}", name, made.top, mirror[0], env=proxied(),
            timeout=7200)
    (made.top / "slh").mkdir()
    apt, dpkg = made.top / "etc/apt", made.top / "etc/dpkg/dpkg.cfg.d"
    (apt / "sources.list").write_text("".join(f"deb {address} {suite} main\n" for address, suite in addresses))
    settings = [it for it in succeed("apt-config", "dump").decode().splitlines() if re.match(OF_APT, it)]
    (apt / "apt.conf.d/99machine").write_text("\n".join([*settings, ""]))
    (dpkg / "unsafe-io").write_text("force-unsafe-io\n")
    shutil.copy("/etc/resolv.conf", made.top / "etc/resolv.conf")
    if os.path.isdir("/etc/apt/auth.conf.d"):
        shutil.copytree("/etc/apt/auth.conf.d", apt / "auth.conf.d", dirs_exist_ok=True)
    made.install(*packages)
