"""Tests that files which tools write are as they write them, and that `rt fmt` would change no file. They belong to no
release, and are in tools/test.sh --quick, too."""

import pytest

from support import HERE, need, run

pytestmark = pytest.mark.quick


@pytest.mark.parametrize("tool", ["contracts.py", "pictures.py", "man3.py"])
def test_file_is_as_its_tool_writes_it(tool):
    """docs/CONTRACTS.md, docs/pictures and bindings/debian/slh.3."""
    need("python3")
    done = run(HERE / "tools" / tool, "--check", cwd=HERE)
    assert done.status == 0, (done.output + done.errors).decode()


def test_layout_of_all_files(kit):
    files = [it for end in ("rt", "antt") for it in sorted((HERE / "crates").glob(f"*/**/*.{end}"))
             if "out" not in it.relative_to(HERE).parts]
    assert len(files) > 500, len(files)
    done = run(HERE / "tools/kit.py", "fmt", *files, cwd=HERE)
    assert done.status == 0, (done.output + done.errors).decode()
