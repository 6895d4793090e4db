"""Wrong bodies as cases, which run if they are asked for alone: by the whole name of an edit, or by this file. A crate's
name then chooses those of a crate.

    pytest -k md_len_rounded_down
    pytest tests/test_wrong_bodies.py -k slh_params

The test command tries them by wrong_bodies.py and tested_bodies.py, several in one check. They take the libraries that
`rt ci`, or a check, has built.
"""
import pytest

from support import HERE

REFUSED = sorted(f"{it.parts[-3]}/{it.stem}" for it in HERE.glob("crates/*/wrong/*.edit"))
TESTED = sorted(it.stem for it in (HERE / "tests/bodies").glob("*.edit"))

pytestmark = [pytest.mark.slow, pytest.mark.asked("edit")]


@pytest.fixture(scope="session")
def edits_of_crates(kit, checked):
    """The module that tries the edits of crates. It can't be read without the kit."""
    import wrong_bodies
    return wrong_bodies


@pytest.fixture(scope="module")
def stored(request, edits_of_crates, tmp_path_factory):
    """The stored work of a crate, whose functions that chosen edits turn are checked as they are: stored(CRATE) is its
    folder."""
    folder, why = tmp_path_factory.mktemp("edits"), {}
    chosen = {it.callspec.params["edit"] for it in request.session.items if it.path == request.path}

    def stores(crate):
        if crate not in why:
            paths = [f"wrong/{it.split('/')[1]}.edit" for it in chosen if it.startswith(f"{crate}/")]
            why[crate] = edits_of_crates.prepare(crate, paths, str(folder / crate), 1)
        assert not why[crate], why[crate]
        return str(folder / crate)

    return stores


@pytest.mark.parametrize("edit", REFUSED)
def test_prover_refuses(edits_of_crates, stored, edit):
    crate, name = edit.split("/")
    is_refused, said = edits_of_crates.try_edit(crate, f"wrong/{name}.edit", stored(crate))
    assert is_refused, said


@pytest.mark.parametrize("edit", TESTED)
def test_prover_accepts_and_a_test_fails(kit, checked, edit):
    """The test passes without the edit."""
    import tested_bodies
    wrong = tested_bodies.read_edit(edit)
    assert not tested_bodies.kit.lacking(wrong["crate"]), tested_bodies.kit.how_to_build(wrong["crate"])
    for found, said in [*tested_bodies.try_all_unchanged([wrong]), tested_bodies.try_run([wrong])]:
        assert all(found.values()), (found, said[-2000:])
