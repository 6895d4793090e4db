"""A copy of the repository with a release in dist/, whose commands run where no kit is on the path."""
import shutil

import pytest

from support import HERE, run, succeed

LEVELS = ("x86-64-v2", "x86-64-v3", "x86-64-v4")
WITHOUT_KIT = "/usr/bin:/bin"
# Without the work of earlier checks, the release and git's folder.
COPY = 'tar -C "$0" --exclude=./.git --exclude=./dist --exclude=out --exclude=__pycache__ -cf - . | tar -C "$1" -xf -'


def skip_beside_kit():
    """Skips the test if rt is among this system's own programs."""
    if shutil.which("rt", path=WITHOUT_KIT):
        pytest.skip(f"rt is in {WITHOUT_KIT} (install the Rattle kit elsewhere)")


def script(path, text):
    """Writes a script that can be run."""
    path.parent.mkdir(parents=True, exist_ok=True)
    path.write_text(text)
    path.chmod(0o755)
    return path


class Copy:
    """The copy is in `path`, and HOME of its commands is `work`."""

    def __init__(self, work, release):
        skip_beside_kit()
        self.work, self.release, self.path = work, release, work / "copy"
        self.dist, self.called = self.path / "dist", work / "called"
        self.path.mkdir(parents=True)
        succeed("bash", "-c", COPY, HERE, self.path)
        self.take_release()

    def take_release(self):
        """Takes the whole release, in place of a changed one."""
        shutil.rmtree(self.dist, ignore_errors=True)
        shutil.copytree(self.release, self.dist, symlinks=True)
        return self

    def run(self, *words, path=WITHOUT_KIT, timeout=600, **variables):
        """Runs a command in the copy, with these variables alone."""
        return run(*words, cwd=self.path, env={"HOME": str(self.work), "PATH": path, **variables}, timeout=timeout)

    def run_with_kit(self, *words, **variables):
        """The same with a stub of rt, which notes that it was called, and fails. Tells whether it was, too."""
        self.called.unlink(missing_ok=True)
        script(self.work / "kit/rt", f'#!/bin/sh\ntouch "{self.called}"\nexit 1\n')
        done = self.run(*words, path=f"{self.work / 'kit'}:{WITHOUT_KIT}", **variables)
        return done, self.called.exists()

    def refuses(self, said, *words, **options):
        """A command has to end with status 2, print nothing, and say this."""
        done = self.run(*words, **options)
        assert (done.status, done.output) == (2, b"") and said in done.errors.decode(), done
        return done.errors.decode()

    def harm(self, file, how):
        """Makes a file of dist/ one that prints `ran`, or removes it."""
        if how == "missing":
            (self.dist / file).unlink()
        else:
            (self.dist / file).write_text("#!/bin/sh\necho ran\n")

    def append(self, file, line):
        """Changes a file of the copy."""
        with open(self.path / file, "a") as opened:
            opened.write(f"{line}\n")

    def list_anew(self):
        """Lists the files of the release as they are now."""
        words = "find . -type f ! -name SHA256SUMS -printf '%P\\0' | xargs -0 sha256sum"
        (self.dist / "SHA256SUMS").write_bytes(run("bash", "-c", words, cwd=self.dist).output)

    def remove(self):
        shutil.rmtree(self.work, ignore_errors=True)
