"""Tests what `import slh` says on a processor for which the library has no code. A library of our own takes the place
of libslh: its level is 0, and its calls are refused, as those of libslh are there."""

from __future__ import annotations

import pathlib
import re
import shutil
import subprocess
import sys
import tempfile
import unittest

import slh

#: slh_lengths answers RESULT, and each other call 39.
OTHER = """
#include <stddef.h>
#include <stdint.h>
uint32_t slh_level(void) { return LEVEL; }
uint32_t slh_version(void) { return 13000; }
uint32_t slh_lengths(uint32_t set, size_t *pk, size_t *sk, size_t *sig, size_t *n) {
    (void)set;
    if (RESULT == 0) *pk = 32, *sk = 64, *sig = 17088, *n = 16;
    return RESULT;
}
void slh_erase(void *bytes, size_t n) { (void)bytes, (void)n; }
const char *slh_refusal_text(uint32_t result) { (void)result; return "the processor is too old"; }
"""


class Processors(unittest.TestCase):
    def setUp(self) -> None:
        if shutil.which("cc") is None:
            self.skipTest("there is no cc: install gcc")
        folder = tempfile.TemporaryDirectory()
        self.addCleanup(folder.cleanup)
        self.work = pathlib.Path(folder.name)
        shutil.copytree(pathlib.Path(slh.__file__).parent, self.work / "slh")

    def imports(self, level: int, result: int) -> subprocess.CompletedProcess[str]:
        """Imports the package over the other library."""
        others = [it for it in slh._calls._NAMES if not re.search(rf"\b{it}\b", OTHER)]
        source = OTHER + "".join(f"uint32_t {it}(void) {{ return 39; }}\n" for it in others)
        library = self.work / "slh" / "libslh.so.1"
        library.unlink()
        numbers = f"-DLEVEL={level}", f"-DRESULT={result}"
        compile = ["cc", "-shared", "-fPIC", "-Wall", "-Werror", *numbers, "-x", "c", "-", "-o", library]
        subprocess.run(compile, input=source, text=True, check=True)
        line = "import slh; print(slh.__file__)"
        return subprocess.run([sys.executable, "-B", "-c", line], cwd=self.work, capture_output=True, text=True)

    def test_a_processor_that_is_too_old_is_named_at_import(self) -> None:
        run = self.imports(level=0, result=39)
        self.assertEqual((run.returncode, run.stdout), (1, ""))
        said = run.stderr.splitlines()[-1]
        self.assertRegex(said, r"^slh\._calls\.OldProcessor: libslh needs .* x86-64-v2 .*slh_level\(\) is 0\)$")

    def test_the_error_is_an_import_error(self) -> None:
        self.assertTrue(issubclass(slh._calls.OldProcessor, ImportError))

    def test_a_library_of_one_level_is_taken(self) -> None:
        for level in (0, 2):
            run = self.imports(level, result=0)
            self.assertEqual((run.returncode, run.stderr), (0, ""))
            self.assertEqual(run.stdout.strip(), str(self.work / "slh" / "__init__.py"))


if __name__ == "__main__":
    unittest.main()
