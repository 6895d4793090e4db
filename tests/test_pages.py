"""Checks the pages: each link leads to a file or heading that is there, README has at most 100 lines and docs/ few
pages and lines, lines are at most 120 wide, cells of tables at most 300 long, a page begins with its reader and
question, and habits that make pages and comments hard to read stay below their limits (sentences.py). Few folders are
at the top, and each has a README. Each source file begins with its purpose, and each path that a text names is there.
Each place with the version has that of the file VERSION. PROVED lists the definitions that its clauses rest on
(reading_list.py). The page of contracts is made, and searched in Chromium.

test_page_commands.py runs the commands of pages.
"""
import itertools
import re
import subprocess

import pytest

import reading_list
from sentences import above_limits, findings, prose_of, sentences
from support import HERE, need, run, succeed

WIDTH, WIDTH_OF_CONTRACTS = 120, 160
README_LINES = 100
# docs/ has at most so many pages and so many lines, without CONTRACTS, which a script writes.
DOCS_PAGES, DOCS_LINES = 13, 1790
# The most characters of a cell of a table.
CELL = 300
# The most folders at the top; each has a README.
TOP_FOLDERS = 9
# A release writes this folder, and without a README until now.
WITHOUT_README = {"dist"}
# In these crates the head of a file names the section of a standard, or says that the file is ours.
OF_THE_STANDARD = set("slh_params slh_hash slh_lanes slh_tree slh_few slh_core slh_subtrees slh_par slh_jobs slh_c"
                      " slh_c_verify slh_conformance".split())
SECTION = re.compile(r"\bours\b|FIPS|RFC|Algorithm|section|Table")
# A path below a folder at the top.
NAMED_PATH = re.compile(r"(?<![\w/.$}~-])((?:docs|tests|tools|bindings|examples|crates|c/(?:include|exports|portable))"
                        r"/[\w./-]*\w)")
# The first line after the title: the reader, and the question that the page answers.
READER = re.compile(r"For [^.:]+: \w")
# These pages name calls and files in almost every sentence: more code is no fault there.
DENSE = re.compile(r"(crates/\w+|tools)/README\.md"
                   r"|docs/(ARCHITECTURE|CONTRACTS|CONTRIBUTING|DEVICES|FORMATS|LIBRARY|MACHINES|PROVED)\.md")
CRATES = sorted(it.parent.name for it in (HERE / "crates").glob("*/src"))


def pages():
    """The pages and headers of the repository, by their paths."""
    found = [*(HERE / it for it in ("README.md", "SECURITY.md", "tests/benches/PROFILES.md"))]
    found += [*HERE.glob("docs/*.md"), *HERE.glob("c/include/*.h*")]
    found += [it for it in HERE.rglob("README.md") if not {"out", "dist"} & {*it.parts} and it.parent != HERE]
    return sorted({str(it.relative_to(HERE)) for it in found})


ALL = pages()
PAGES = [it for it in ALL if it.endswith(".md")]
ASKED = [it for it in PAGES if it.startswith(("docs/", "crates/")) or re.fullmatch(r"\w+/README\.md", it)]


# ---- each page


@pytest.mark.parametrize("page", ALL)
def test_lines_are_narrow(page):
    """Rows of tables and lines with an address may be wider."""
    width = WIDTH_OF_CONTRACTS if page == "docs/CONTRACTS.md" else WIDTH
    lines = enumerate((HERE / page).read_text().split("\n"), 1)
    assert not [number for number, line in lines if line[:1] != "|" and len(line) > width and "http" not in line]


def anchors(path):
    """The anchors of a page's headings, as GitHub makes them."""
    text = re.sub(r"^```.*?^```$", "", path.read_text(), flags=re.M | re.S)
    heads = [re.sub(r"[^\w\- ]", "", it.lower()).replace(" ", "-") for it in re.findall(r"^#+ (.*)$", text, re.M)]
    return set(heads)


def broken_links(name):
    """The links of a page to a file, or a heading of a page, that is not there."""
    text = re.sub(r"^```.*?^```$", "", (HERE / name).read_text(), flags=re.M | re.S)
    text = re.sub(r"^    .*$", "", text, flags=re.M)
    for target in re.findall(r"\]\(([^)\s]+)\)", text):
        if re.match(r"[a-z]+:", target):
            continue
        file, _, anchor = target.partition("#")
        path = (HERE / name).parent / file if file else HERE / name
        if not path.exists() or anchor and path.suffix == ".md" and anchor not in anchors(path):
            yield target


def long_cells(text):
    """The cells of tables that are longer than CELL. Targets of links and code, as lists of names, do not count."""
    rows = re.findall(r"^\|.*\|$", re.sub(r"\]\([^)]*\)|`[^`]*`", "", text), re.M)
    return [it.strip() for row in rows for it in re.split(r"(?<!\\)\|", row) if len(it.strip()) > CELL]


@pytest.mark.parametrize("page", sorted({*PAGES, "bindings/CALLS.md", "CHANGELOG.md"}))
def test_cells_are_short(page):
    assert not long_cells((HERE / page).read_text())


@pytest.mark.parametrize("text, found", [
    (f"| a | {'b' * 300} |\n", 0), (f"| a | {'b' * 301} |\n", 1), (f"| {'b c ' * 80} | d |\n| e |\n", 1),
    (f"| a | [b]({'c' * 301}) `{'d' * 301}` |\n", 0), (f"{'b' * 301}\n", 0)])
def test_long_cells_are_found(text, found):
    assert len(long_cells(text)) == found


@pytest.mark.parametrize("page", PAGES)
def test_links_lead_somewhere(page):
    assert not list(broken_links(page))


@pytest.mark.parametrize("page", ALL)
def test_sentences_are_easy(page):
    assert not above_limits(page, (HERE / page).read_text(), {"codes"} if DENSE.fullmatch(page) else set())


@pytest.mark.parametrize("page", ASKED)
def test_page_names_reader_and_question(page):
    assert READER.match((prose_of(page, (HERE / page).read_text()) or [""])[0])


def test_readme_is_short():
    assert 0 < (HERE / "README.md").read_text().count("\n") <= README_LINES


def test_docs_are_short():
    names = {it.name for it in HERE.glob("docs/*.md")} - {"README.md", "CONTRACTS.md"}
    assert 0 < len(names) <= DOCS_PAGES
    assert sum((HERE / "docs" / it).read_text().count("\n") for it in names) <= DOCS_LINES


# ---- comments, heads and paths


def help_text():
    """The texts of the program's command line, as comments."""
    files = [it for it in HERE.glob("crates/slh_tool/src/**/*.rt") if "arguments" in str(it)]
    code = "\n".join(it.read_text() for it in files)
    texts = re.findall(r'"((?:[^"\\]|\\.)*)"', re.sub(r"^\s*//.*$", "", code, flags=re.M))
    texts = [it.replace("\\n", "\n") for it in texts if " " in it]
    return "\n\n".join("// " + re.sub(r"\n\s*", "\n// ", it) for it in texts)


def comments_of(crate, kind):
    return "\n\n".join(it.read_text() for it in sorted((HERE / "crates" / crate).glob(f"{kind}/**/*.*t")))


@pytest.mark.parametrize("kind", ["src", "specs"])
@pytest.mark.parametrize("crate", CRATES)
def test_comments_are_easy(crate, kind):
    """Comments may name code at will."""
    assert not above_limits("comments", comments_of(crate, kind), {"codes"})


def test_help_is_easy():
    assert len(help_text()) > 1000 and not above_limits("comments", help_text(), {"codes"})


def test_comments_are_read():
    """Else the two above would look at nothing."""
    texts = [comments_of(crate, kind) for crate in CRATES for kind in ("src", "specs")]
    assert sum(findings(it)[0] for text in [*texts, help_text()] for it in sentences("comments", text)) > 40000


def test_top_has_few_folders_with_readmes():
    words = ["git", "-C", HERE, "ls-files", "-z", "--cached", "--others", "--exclude-standard"]
    listed = run(*words).output.decode().split("\0")
    top = {it.split("/")[0] for it in listed if "/" in it and not it.startswith(".")}
    top = top or {it.name for it in HERE.iterdir() if it.is_dir() and not it.name.startswith(".")}
    assert 0 < len(top) <= TOP_FOLDERS
    assert not [it for it in sorted(top - WITHOUT_README) if not (HERE / it / "README.md").is_file()]


def missing_paths(text):
    """The paths that a text names below folders at the top, and that are not there. A word in capitals replaces a name,
    and builds make `out`."""
    for path in sorted(set(NAMED_PATH.findall(text))):
        is_pattern = re.search(r"\b[A-Z]{2,}\b|/out/", path) and not path.endswith(".md")
        if not is_pattern and not (HERE / path).exists() and not any(HERE.glob(f"{path}*")):
            yield path


def test_paths_that_texts_name_are_there():
    """Those of pages, source files and scripts. The stubs of test_test_command.py are no files here."""
    files = [HERE / it for it in ALL if it != "bindings/README.md"]
    files += [*HERE.glob("crates/*/src/**/*.rt"), *HERE.glob("crates/*/specs/**/*.antt"), *HERE.glob("examples/*.*")]
    files += [*HERE.glob("tools/*.*"), *HERE.glob("tests/*.*"), *HERE.glob("tests/benches/*.*")]
    files = sorted({*files} - {HERE / "tests/test_test_command.py"})
    faults = {str(it.relative_to(HERE)): [*missing_paths(it.read_text())] for it in files}
    assert len(faults) > 400 and not {name: it for name, it in faults.items() if it}


def head_of(path):
    """The comment with which a file begins, as one line."""
    lines = itertools.takewhile(lambda line: line.startswith(("//!", "--")), path.read_text().split("\n"))
    return " ".join(line[3:].strip() for line in lines)


def test_source_files_begin_with_purpose():
    """And with the section, if a standard has it."""
    crates = HERE / "crates"
    files = [*crates.glob("*/src/**/*.rt"), *crates.glob("*/specs/**/*.antt")]
    heads = {it.relative_to(crates): head_of(it) for it in files if it.name != "Lib.antt"}
    assert len(heads) > 300 and not [str(it) for it, head in heads.items() if not head]
    of_standard = {it: head for it, head in heads.items() if it.parts[0] in OF_THE_STANDARD}
    assert of_standard and not [str(it) for it, head in of_standard.items() if not SECTION.search(head)]


def test_each_place_has_the_version():
    succeed(HERE / "tools/version.py", "--check")


def test_proved_lists_the_definitions_that_its_clauses_rest_on():
    assert not reading_list.faults()


# ---- lists of calls


def declared(header):
    """The calls that a header declares, without its comments."""
    text = re.sub(r"/\*.*?\*/", "", (HERE / "c/include" / header).read_text(), flags=re.S)
    return set(re.findall(r"\b(slh_\w+)\(", text))


def lacking(calls, text, form):
    return sorted(it for it in calls if not re.search(form.format(it), text))


def test_list_of_slh_h_names_each_call():
    calls, top = declared("slh.h") | declared("slh_verify.h"), (HERE / "c/include/slh.h").read_text().split("*/")[0]
    assert len(calls) > 30 and not lacking(calls, top.split("Duties")[0], r"\b{}\b")


def test_list_of_slh_verify_h_names_each_call():
    calls, top = declared("slh_verify.h"), (HERE / "c/include/slh_verify.h").read_text().split("*/")[0]
    assert calls and not lacking(calls, top, r"\b{}\b")


def test_list_of_library_names_each_call():
    calls = declared("slh.h") | declared("slh_verify.h") | declared("slh_internal.h")
    page = (HERE / "docs/LIBRARY.md").read_text().split("\n## The calls\n")[1].split("\n## ")[0]
    assert len(calls) > 30 and not lacking(calls, page, "`{}`")


# ---- the page of contracts

# The page in a frame as wide as a phone, which says how wide its content is.
PHONE = """<!doctype html><iframe src="contracts.html" style="width: 360px; height: 640px; border: 0"></iframe>
<script>
onload = () => {
    const width = document.querySelector("iframe").contentDocument.documentElement.scrollWidth;
    document.body.insertAdjacentHTML("beforeend", `<b id="width">${width}</b>`);
};
</script>
"""


@pytest.fixture(scope="module")
def contracts(tmp_path_factory):
    """The page of contracts."""
    page = tmp_path_factory.mktemp("contracts") / "contracts.html"
    succeed(HERE / "tools/contracts_page.py", page)
    return page


@pytest.fixture
def shown(tmp_path):
    """Opens a page in a browser, after a search for words: its text, and the calls that are visible, in their order."""
    need("chromium")

    def opens(page, words=""):
        command = ["chromium", "--headless", "--no-sandbox", "--disable-gpu", f"--user-data-dir={tmp_path}/user",
                   "--dump-dom", "--allow-file-access-from-files", "--virtual-time-budget=20000",
                   f"{page.as_uri()}{words}"]
        text = run(*command, stderr=subprocess.DEVNULL, timeout=120).output.decode()
        return text, re.findall(r'<section(?: id="\w+")? class="call"><h3>([^<]*)</h3>', text)

    return opens


def test_contracts_have_links_with_targets(contracts):
    text = contracts.read_text()
    links = set(re.findall(r'href="#([^"]+)"', text))
    assert links and not links - set(re.findall(r'id="([^"]+)"', text))


def test_contracts_name_version_crates_and_words(contracts):
    head, version = contracts.read_text().split("<main>")[0], (HERE / "VERSION").read_text().strip()
    words = ["<head>", "</head>", f"<h1>Every call of Pipitscreen {version} ", "x.now", "x.old", "x.new", "result"]
    crates = [f'href="#{it}"' for it in ("slh_params", "slh_core", "slh_jobs", "slh_c", "slh_tool")]
    assert not [it for it in words + crates if it not in head]


def test_contracts_fit_a_phone(contracts, shown):
    phone = contracts.parent / "phone.html"
    phone.write_text(PHONE)
    width = re.search(r'<b id="width">(\d+)</b>', shown(phone)[0])
    assert width and 0 < int(width[1]) <= 360


def test_contracts_answer_a_search(contracts, shown):
    text, visible = shown(contracts, "#q=sign_join%20authentic")
    found = re.search(r'<output id="count">(\d+) of (\d+)</output>', text)
    assert found and 0 < int(found[1]) < int(found[2]) and "slh_jobs: sign_join" in visible


def test_contracts_show_a_call_of_the_name_first(contracts, shown):
    names = [re.split("[ :]+", it)[-1] for it in shown(contracts, "#q=sign")[1]]
    assert names.count("sign") > 2 and set(names[:names.count("sign")]) == {"sign"} and len(names) > 20
