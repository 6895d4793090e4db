"""Runs the blocks of README.md as they stand, and looks whether it names each call and each error."""

from __future__ import annotations

import contextlib
import importlib.metadata
import io
import os
import pathlib
import re
import tempfile
import unittest

import slh

README = (pathlib.Path(__file__).resolve().parents[1] / "README.md").read_text()


class Readme(unittest.TestCase):
    def test_its_blocks_run(self) -> None:
        blocks = re.findall(r"^```python\n(.*?)^```$", README, re.DOTALL | re.MULTILINE)
        self.assertEqual(len(blocks), README.count("```python"))
        names: dict = {}
        out, before = io.StringIO(), os.getcwd()
        with tempfile.TemporaryDirectory() as folder, contextlib.redirect_stdout(out):
            os.chdir(folder)
            try:
                for block in blocks:
                    exec(compile(block, "README.md", "exec"), names)
            finally:
                os.chdir(before)
        self.assertRegex(out.getvalue(), f"^<slh.PublicKey SLH-DSA-SHA2-128f SHA256:.*{re.escape(slh.__version__)}")
        names["public"].verify(message=names["message"], signature=names["signature"])
        self.assertRaises(slh.Erased, names["secret"].check)

    def test_it_names_each_call_and_each_error(self) -> None:
        left = {"Lengths"}
        for name in set(slh.__all__) - left:
            self.assertIn(f"slh.{name}", README)
        of_the_classes = {it for cls in (slh.PublicKey, slh.SecretKey) for it in dir(cls) if not it.startswith("_")}
        for name in of_the_classes:
            self.assertRegex(README, rf"\.{name}\b")

    def test_it_is_short(self) -> None:
        lines = README.splitlines()
        self.assertLessEqual(len(lines), 90)
        self.assertEqual([it for it in lines if len(it) > 120 and not it.startswith("|")], [])

    def test_the_metadata_have_it(self) -> None:
        """The package is installed as a wheel, or is a folder without metadata."""
        try:
            metadata = importlib.metadata.metadata("slh")
        except importlib.metadata.PackageNotFoundError:
            self.skipTest("the package is not installed")
        self.assertEqual(metadata["Version"], slh.__version__)
        self.assertEqual(metadata["Requires-Python"], ">=3.9")
        self.assertEqual(metadata["Description-Content-Type"], "text/markdown")
        self.assertIn("FIPS 205", metadata["Summary"])
        self.assertIn("Private :: Do Not Upload", metadata.get_all("Classifier"))
        text = metadata.get_payload() or metadata["Description"]
        self.assertEqual(text.split(), README.split())
        files = [str(it) for it in importlib.metadata.files("slh")]
        for name in "LICENSE-APACHE", "LICENSE-MIT":
            self.assertTrue([it for it in files if it.endswith(name)], files)


if __name__ == "__main__":
    unittest.main()
