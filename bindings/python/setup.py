"""What setuptools builds: a wheel with the portable C, if the library's folder has no shared object, and the source
distribution. slh_wheel.py beside this file builds all other wheels, and says what SLH_PREFIX is.

The portable C is as `tools/library.sh --target portable` leaves it. A wheel with it is for this kind of machine. A
source distribution has the portable C and its headers in the folder `library`, and takes these if there is no
SLH_PREFIX. The same files give the same wheel, bit for bit, by the same setuptools. pyproject.toml has the metadata.
"""

from __future__ import annotations

import os
import pathlib
import re
import shutil
import sys

import setuptools
from setuptools.command import build_ext, sdist

try:
    from setuptools.command.bdist_wheel import bdist_wheel
except ImportError:  # setuptools before 70.1
    from wheel.bdist_wheel import bdist_wheel

sys.path.insert(0, str(pathlib.Path(__file__).resolve().parent))
import slh_wheel  # noqa: E402

PREFIX = slh_wheel.library_prefix()
SHARED = slh_wheel.shared_of(PREFIX)
SOURCE = slh_wheel.source_of(PREFIX)


class Library(build_ext.build_ext):
    """Puts the shared object into the package: that of PREFIX, or one of the portable C. Python has no part in it."""

    def finalize_options(self) -> None:
        super().finalize_options()
        # What an earlier build has left may be of another PREFIX.
        self.force = True

    def get_ext_filename(self, fullname: str) -> str:
        return os.path.join(*fullname.split(".")[:-1], slh_wheel.NAME)

    def get_export_symbols(self, ext: setuptools.Extension) -> list[str]:
        """The calls, where a linker has to be told them, as on Windows."""
        text = "".join((PREFIX / "include" / it).read_text() for it in ("slh_verify.h", "slh.h", "slh_internal.h"))
        return sorted(set(re.findall(r"\b(slh_\w+)\(", text)))

    def get_libraries(self, ext: setuptools.Extension) -> list[str]:
        return []

    def build_extension(self, ext: setuptools.Extension) -> None:
        if SHARED.is_file():
            target = self.get_ext_fullpath(ext.name)
            self.mkpath(os.path.dirname(target))
            self.copy_file(str(SHARED), target)
            return
        ext.sources = [str(SOURCE)]
        ext.include_dirs = [str(PREFIX / "include")]
        is_msvc = self.compiler.compiler_type == "msvc"
        ext.extra_compile_args = ["/std:c11", "/O2"] if is_msvc else ["-std=c11", "-O2", "-g0"]
        super().build_extension(ext)


class Wheel(bdist_wheel):
    """A wheel for any Python 3: what is compiled knows nothing of Python."""

    def get_tag(self) -> tuple[str, str, str]:
        return "py3", "none", slh_wheel.platform_of(SHARED) if SHARED.is_file() else super().get_tag()[2]


class Sources(sdist.sdist):
    """A source distribution that has the portable C inside."""

    def make_release_tree(self, base_dir: str, files: list[str]) -> None:
        if not SOURCE.is_file():
            sys.exit(f"setup.py: there is no src/slh.c in {PREFIX}: install it by tools/library.sh --target portable")
        super().make_release_tree(base_dir, files)
        # setuptools does not take it for a module of the package.
        shutil.copy(slh_wheel.__file__, base_dir)
        for source in (SOURCE, *sorted((PREFIX / "include").glob("*.h"))):
            target = pathlib.Path(base_dir, slh_wheel.INSIDE.name, source.parent.name)
            target.mkdir(parents=True, exist_ok=True)
            shutil.copy(source, target)


# Where nothing else is said, the files of the wheel have the oldest time that a wheel can say.
os.environ.setdefault("SOURCE_DATE_EPOCH", "315532800")
setuptools.setup(
    version=slh_wheel.library_version(PREFIX),
    packages=["slh"],
    package_data={"slh": ["py.typed"]},
    ext_modules=[setuptools.Extension("slh.libslh", sources=[])],
    cmdclass={"build_ext": Library, "bdist_wheel": Wheel, "sdist": Sources},
)
