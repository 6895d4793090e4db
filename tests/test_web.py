"""Tries the page that verifies, as tools/web_page.sh writes it, in Chromium and Firefox without a window, opened from a
folder: signatures of the vectors and damaged ones, dropped and large files, the keyboard, a screen reader, and each
mistake that it names. It can't send anything. The package for JavaScript runs in Chromium, too."""
import base64
import contextlib
import functools
import http.server
import json
import os
import shutil
import threading
import time

import pytest

from browsers import Browser, Firefox
from support import HERE, VECTORS, need, run, succeed

LABELS = ["128s", "128f", "192s", "192f", "256s", "256f"]
FORMS = ["pure", "SHA2-224", "SHA2-256", "SHA2-384", "SHA2-512", "SHA2-512/224", "SHA2-512/256"]
OF_SETS = pytest.mark.parametrize("label", [it if it == "128f" else pytest.param(it, marks=pytest.mark.slow)
                                            for it in LABELS])
# Signs and verifies by the package for JavaScript, in a page or in a worker. Each answer has to be true.
PROGRAM = """
import { load, Refusal } from "./slh.js";
const message = new TextEncoder().encode("letter");
const isRefused = (call) => { try { call(); } catch (error) { return error instanceof Refusal; } };

async function answersOf() {
    const slh = await load();
    const secret = slh.parseSecretKey(slh.generate("SLH-DSA-SHA2-128f").format());
    const signature = secret.sign(message, { twice: true, verify: true });
    return [secret.public().verify(message, signature), !secret.public().verify(signature, signature),
        isRefused(() => secret.sign(message, { context: new Uint8Array(256) })),
        (await secret.public().fingerprint()).startsWith("SHA256:")];
}
const answers = await answersOf().catch((error) => [String(error)]);
"""


# ---- the page


@pytest.fixture(scope="module")
def module(release, of_these_sources):
    path = release / "wasm32/slh.wasm"
    if not path.is_file():
        pytest.skip("the release has no module with a 32-bit memory (tools/release.sh builds it)")
    return path


@pytest.fixture(scope="module")
def html(release, module, tmp_path_factory):
    """The path of the page."""
    path = tmp_path_factory.mktemp("page").resolve() / "verify.html"
    succeed(HERE / "tools/web_page.sh", release, path)
    return path


def without_base64(folder):
    stub = folder / "base64"
    stub.write_text("#!/bin/sh\nexit 1\n")
    stub.chmod(0o755)
    return {**os.environ, "PATH": f"{folder}:{os.environ['PATH']}"}, folder / "none.html"


@pytest.mark.slow
@pytest.mark.parametrize("fault", ["without base64", "on a full disk"])
def test_page_that_cannot_be_made_is_told(release, module, tmp_path, fault):
    env, path = without_base64(tmp_path) if fault == "without base64" else (os.environ, "/dev/full")
    assert run(HERE / "tools/web_page.sh", release, path, env=env).status == 1
    assert not (tmp_path / "none.html").exists()


def vectors(label, kind="verify"):
    tests = json.loads((VECTORS / f"slh-dsa-sha2-{label}.json").read_text())
    return [it for it in tests if it["kind"] == kind and it["form"] != "internal"]


class Page:
    """The page in a browser, and files to choose."""

    def __init__(self, browser, html, folder):
        self.browser, self.html, self.folder = browser, html, folder
        wanted = {"form": "pure", "context": ""}
        signed = next(it for it in vectors("128f", "sign") if wanted.items() <= it.items() and it["message"])
        self.test = dict(signed, pk=signed["sk"][64:])

    def files(self, test, **other):
        """The message, the signature and the public key of a test, as files, or other bytes in place of one."""
        data = {it: bytes.fromhex(test[it]) for it in ("message", "signature")}
        key = f"slh-dsa-public 2\n{test['set']}\n{test['pk']}\n".encode()
        paths = []
        for name, found in {**data, "key": key, **other}.items():
            paths.append(self.folder / name)
            paths[-1].write_bytes(found)
        return paths

    def open(self, path=None):
        self.browser.open(path or self.html)

    def choose(self, paths):
        for name, path in zip(("message", "signature", "key"), paths):
            self.browser.choose(name, path)

    def verdict(self):
        """What the page says in the end, of which it is one of three things."""
        self.browser.wait_for("!['', undefined].includes(verdict.dataset.is)")
        return self.browser.value("verdict.dataset.is"), self.browser.value("verdict.innerText")

    def says(self, paths, form="pure", context=""):
        self.open()
        self.browser.value(f"document.getElementById('function').value = {FORMS.index(form)}; "
                           f"document.getElementById('context').value = '{context}'; null")
        self.choose(paths)
        return self.verdict()

    def says_of(self, form="pure", context="", **other):
        """What the page says of a valid test with other bytes."""
        return self.says(self.files(self.test, **other), form, context)


@contextlib.contextmanager
def begun(browser):
    """A browser that is there, and is ended at last."""
    try:
        browser.begin()
        yield browser
    finally:
        browser.end()


@pytest.fixture(scope="module")
def chromium(tmp_path_factory):
    need("chromium")
    with begun(Browser(shutil.which("chromium"), tmp_path_factory.mktemp("chromium"))) as browser:
        yield browser


@pytest.fixture(scope="module")
def firefox(tmp_path_factory):
    need("firefox-esr")
    with begun(Firefox(shutil.which("firefox-esr"), tmp_path_factory.mktemp("firefox") / "profile")) as browser:
        yield browser


@pytest.fixture
def faulty_page(chromium, html, tmp_path):
    """The page in Chromium, where it may throw and ask for other files."""
    return Page(chromium, html, tmp_path.resolve())


@pytest.fixture
def page(chromium, faulty_page):
    """The page in Chromium. Nothing may be thrown there that nothing catches, and nothing else may be loaded."""
    chromium.events.clear()
    yield faulty_page
    assert not requested(chromium, faulty_page.html)[1]
    assert not [it["params"] for it in chromium.events if it["method"] == "Runtime.exceptionThrown"]


@pytest.fixture
def page_in_firefox(firefox, html, tmp_path):
    return Page(firefox, html, tmp_path.resolve())


def requested(chromium, html):
    """The addresses that were loaded, and those of them that are not of the page."""
    sent = [it["params"] for it in chromium.events if it["method"] == "Network.requestWillBeSent"]
    urls = [it["request"]["url"] for it in sent]
    return urls, [it for it in urls if not it.startswith((html.as_uri(), "blob:"))]


# ---- verdicts


def chosen(label):
    """Of each form some valid and some other verify tests, whose verdict is OpenSSL's."""
    tests, found = vectors(label), []
    for is_valid in True, False:
        of_kind = [it for it in tests if it["valid"] == is_valid]
        found += of_kind[:2] + [it for it in of_kind[2:] if it["context"] or it["form"] != "pure"][:2]
    assert {it["valid"] for it in found} == {True, False} and len(found) > 4
    return found


def check_verdicts(page, label):
    for test in chosen(label):
        verdict, text = page.says(page.files(test), test["form"], test["context"])
        word = "valid" if test["valid"] else "invalid"
        assert verdict == word and text.lower().startswith(word + "\n"), f"{test['form']}: {text}; {word} is right"
        assert test["pk"] in text and test["set"] in text


@OF_SETS
def test_verdicts_in_chromium(page, label):
    check_verdicts(page, label)


@OF_SETS
def test_verdicts_in_firefox(page_in_firefox, label):
    check_verdicts(page_in_firefox, label)


def check_damaged(page):
    message, signature = (bytes.fromhex(page.test[it]) for it in ("message", "signature"))
    assert page.says_of()[0] == "valid"
    for at in range(0, len(signature), 2500):
        data = signature[:at] + bytes([signature[at] ^ 1]) + signature[at + 1 :]
        assert page.says_of(signature=data)[0] == "invalid", f"the byte {at} of the signature"
    for data in signature[:-1], signature + b"x", b"", signature * 2:
        assert page.says_of(signature=data)[0] == "invalid", f"{len(data)} bytes"
    assert page.says_of(message=message + b"x")[0] == "invalid"
    assert page.says_of(form="SHA2-256")[0] == "invalid"
    assert page.says_of(context="00")[0] == "invalid"


@pytest.mark.slow
def test_damaged_signatures_in_chromium(page):
    check_damaged(page)


@pytest.mark.slow
def test_damaged_signatures_in_firefox(page_in_firefox):
    check_damaged(page_in_firefox)


# ---- keys


@pytest.mark.slow
def test_keys_of_each_version(page):
    """And without a file's head."""
    key, name = page.test["pk"], page.test["set"]
    for data in f"slh-dsa-public 1\n{name}\n{key}".encode(), bytes.fromhex(key):
        assert page.says_of(key=data)[0] == "valid", data
    other = bytes.fromhex(key[:-1] + "0123456789abcdef"[int(key[-1], 16) ^ 1])
    of_128s = f"slh-dsa-public 2\nSLH-DSA-SHA2-128s\n{key}\n".encode()
    for data in other, of_128s:
        assert page.says_of(key=data)[0] == "invalid", data


@pytest.mark.slow
def test_what_is_no_key_is_told(page):
    key, name = page.test["pk"], page.test["set"]
    for data in b"", b"x" * 33, f"slh-dsa-secret 2\n{name}\n{key}\n".encode(), \
            f"slh-dsa-public 2\n{name}\n{key[2:]}\n".encode(), b"slh-dsa-public 2\n".ljust(32), b"x" * 514:
        verdict, text = page.says_of(key=data)
        assert verdict == "refused" and text.startswith("Not judged\n"), data
    assert page.says_of(context="0")[0] == "refused"  # an odd number of digits


@pytest.mark.slow
def test_secret_key_is_named_and_not_shown(page):
    secret, name = page.test["sk"], page.test["set"]
    raw = [bytes.fromhex(secret), bytes.fromhex(secret) * 2, (bytes.fromhex(secret) * 2)[:96]]
    files = [f"slh-dsa-secret {version}\n{name}\n{secret}\n".encode() for version in (1, 2)]
    parts = [secret[at : at + 16] for at in range(0, 2 * 32 - 16, 2)]
    for data in files + raw:
        verdict, text = page.says_of(key=data)
        assert verdict == "refused" and "secret key" in text and "slh public" in text, f"{data}: {text}"
        shown = page.browser.value("document.documentElement.innerHTML + document.title").lower()
        assert not any(part in shown for part in parts), f"{data} is shown"


@pytest.mark.slow
@pytest.mark.parametrize("kind", ["PUBLIC KEY", "PRIVATE KEY", "ENCRYPTED PRIVATE KEY", "CERTIFICATE"])
def test_pem_file_is_named(page, kind):
    data = f"-----BEGIN {kind}-----\n{'A' * 64}\n-----END {kind}-----\n".encode()
    for pem in data, data + data * 40:
        verdict, text = page.says_of(key=pem)
        assert verdict == "refused" and f"PEM file ({kind})" in text


@pytest.mark.slow
def test_key_with_the_length_of_a_secret_one(page):
    """The 64 bytes of a public key of a 256 set."""
    test = next(it for it in vectors("256f") if it["valid"])
    verdict, text = page.says(page.files(test, key=bytes.fromhex(test["pk"])), test["form"], test["context"])
    assert verdict == "valid", text


# ---- mistakes


def mistakes(test, key):
    """Bytes for files, the verdict, and words that the page has to say."""
    signature = bytes.fromhex(test["signature"])
    exchanged = ["signature and the key exchanged"]
    return [
        ({"signature": key, "key": signature}, "refused", exchanged),
        ({"key": signature}, "refused", exchanged),
        ({"signature": key}, "refused", exchanged),
        ({"signature": key.replace(b"public", b"secret")}, "refused", ["secret key file"]),
        ({"key": key.replace(b"\n", b"\r\n")}, "refused", ["carriage returns", "slh public"]),
        ({"signature": base64.encodebytes(signature)}, "invalid", ["base64", "the bytes"]),
        ({"signature": base64.b64encode(signature)}, "invalid", ["base64", "the bytes"]),
        ({"signature": signature.hex().encode()}, "invalid", ["hexadecimal digits", "the bytes"]),
        ({"signature": signature[:-1]}, "invalid", ["17087 bytes", "17088 bytes (SLH-DSA-SHA2-128f)"]),
        ({"signature": signature + b"\n"}, "invalid", ["17089 bytes", "17088 bytes (SLH-DSA-SHA2-128f)"]),
        ({"signature": b""}, "invalid", ["0 bytes", "17088 bytes"]),
        ({"signature": signature[:-1], "key": bytes.fromhex(test["pk"])}, "invalid", ["7856 bytes", "17088 bytes"]),
    ]


@pytest.mark.slow
def test_mistakes_are_named(page):
    """Files in each other's place, carriage returns, an encoded signature and a wrong length."""
    key = page.files(page.test)[2].read_bytes()
    for other, wanted, words in mistakes(page.test, key):
        verdict, text = page.says_of(**other)
        assert verdict == wanted and all(it in text for it in words), f"{[*other]}: {text}; {words} is right"
    verdict, text = page.says_of()
    assert verdict == "valid" and "bytes (" not in text and "exchanged" not in text


@pytest.mark.slow
def test_browsers_that_work_are_named(page):
    """Also if this one does not work, which is told from a damaged module."""
    known = ["WebAssembly", "SIMD", "Chromium"]
    page.open()
    assert all(it in page.browser.value("document.querySelector('main').innerText") for it in known)
    without = "WebAssembly.validate = () => false"
    added = page.browser.tell("Page.addScriptToEvaluateOnNewDocument", source=without)["identifier"]
    try:
        page.open()
        verdict, text = page.verdict()
        assert verdict == "refused" and all(it in text for it in known) and "damaged" not in text
    finally:
        page.browser.tell("Page.removeScriptToEvaluateOnNewDocument", identifier=added)


@pytest.mark.slow
def test_page_without_its_module_judges_nothing(faulty_page):
    """As it is in the repository, and with a damaged module."""
    html, paths = faulty_page.html, faulty_page.files(faulty_page.test)
    cut, bare = html.with_name("cut.html"), html.with_name("bare.html")
    text = html.read_text()
    at = text.index('id="module">') + 5000
    cut.write_text(text[:at] + text[at + 4 :])
    shutil.copy(HERE / "bindings/web/verify.html", bare)
    for path, word in (bare, "no module"), (cut, "damaged"):
        faulty_page.open(path)
        faulty_page.choose(paths)
        verdict, said = faulty_page.verdict()
        assert verdict == "refused" and word in said and "browser" not in said, path.name


# ---- files, the keyboard, and a screen reader


def drop(browser, place, path):
    """Drops a file onto the element that a selector names."""
    box = f"document.querySelector('{place}').getBoundingClientRect()"
    x, y = (browser.value(f"{box}.{it}") + 5 for it in ("x", "y"))
    data = {"items": [], "files": [str(path)], "dragOperationsMask": 1}
    for kind in "dragEnter", "dragOver", "drop":
        browser.tell("Input.dispatchDragEvent", type=kind, x=x, y=y, data=data)


@pytest.mark.slow
def test_dropped_files_are_verified(page):
    """One that is dropped beside their places does not leave the page."""
    page.open()
    paths = page.files(page.test)
    drop(page.browser, "h1", paths[0])
    assert page.browser.value("verdict.textContent").endswith("File, Signature, Public key.")
    for name, path in zip(("#message", "#signature", "#key"), paths):
        drop(page.browser, name, path)
    assert page.verdict()[0] == "valid"


@pytest.mark.slow
def test_large_file_has_its_progress_shown(page):
    """It rises. A choice meanwhile begins anew."""
    page.open()
    paths, large = page.files(page.test), page.folder / "large"
    with open(large, "wb") as file:
        file.truncate(150_000_000)
    page.browser.value("seen = []; for (const it of [new MutationObserver(() => seen.push(progress.value))]) "
                       "it.observe(progress, { attributes: true }); null")
    page.choose([large, *paths[1:]])
    page.browser.wait_for("progress.value > 0 || verdict.dataset.is")
    assert not page.browser.value("reading.hidden")
    assert page.verdict()[0] == "invalid" and page.browser.value("reading.hidden")
    seen = page.browser.value("seen")
    assert seen == sorted(seen) and len([it for it in set(seen) if 0 < it < 1]) > 3, seen[:20]
    page.choose([large])
    page.browser.wait_for("progress.value > 0")
    page.choose(paths[:1])
    assert page.verdict()[0] == "valid"
    large.unlink()


@pytest.mark.slow
def test_keyboard_reaches_all(page):
    """The Tab key goes to each of what can be chosen, in order, and Enter opens what is closed."""
    page.open()
    page.browser.tell("Page.bringToFront")
    found = []
    for key in ["Tab"] * 4 + ["Enter"] + ["Tab"] * 2:
        page.browser.press(key)
        found.append(page.browser.value("document.activeElement.id || document.activeElement.localName"))
    assert found == ["message", "signature", "key", "summary", "summary", "function", "context"]


@pytest.mark.slow
def test_screen_reader_is_told_all(page):
    """Each of what can be chosen has its label, and the verdict is told politely, all of it."""
    page.says_of()
    page.browser.value("document.querySelector('details').open = true; null")
    nodes = [it for it in page.browser.tell("Accessibility.getFullAXTree")["nodes"] if not it["ignored"]]
    roles = "button", "combobox", "textbox"
    names = {it["name"]["value"].partition(":")[0] for it in nodes if it["role"]["value"] in roles}
    assert {"File", "Signature", "Public key", "Form", "Context"} <= names
    (status,) = [it for it in nodes if it["role"]["value"] == "status"]
    told = {it["name"]: it["value"].get("value") for it in status.get("properties", [])}
    assert told.get("live") == "polite" and told.get("atomic") is True
    assert page.browser.value("document.documentElement.lang") == "en"
    assert page.browser.value("document.querySelectorAll('h1').length") == 1


# ---- what the page can reach


def test_only_the_page_is_loaded(page):
    """The fixture looks at this after each test. Here each opened page is among the addresses."""
    assert [page.says_of()[0], page.says_of(message=b"other")[0]] == ["valid", "invalid"]
    urls, others = requested(page.browser, page.html)
    assert urls.count(page.html.as_uri()) == 2 and not others


class Handler(http.server.BaseHTTPRequestHandler):
    """Lets any page read its answers, and notes what is asked for."""

    def do_GET(self):
        self.server.asked.append(self.path)
        self.send_response(200)
        self.send_header("Access-Control-Allow-Origin", "*")
        self.end_headers()

    do_POST = do_GET

    def log_message(self, *_):
        pass


@pytest.fixture
def server():
    with http.server.HTTPServer(("127.0.0.1", 0), Handler) as it:
        it.asked = []
        threading.Thread(target=it.serve_forever, daemon=True).start()
        yield it
        it.shutdown()


IMAGE = "new Promise((yes, no) => Object.assign(new Image(), { onload: yes, onerror: no, src: '%s' }))"


@pytest.mark.slow
@pytest.mark.parametrize("send", ["fetch('%s')", IMAGE, "import('%s')"], ids=["fetch", "image", "import"])
def test_nothing_is_sent(faulty_page, server, send):
    """The page can't reach a server on this machine."""
    faulty_page.open()
    address = f"http://127.0.0.1:{server.server_port}/it"
    said = faulty_page.browser.value(f"({send % address}).then(() => 'sent', (fault) => 'refused')")
    assert said == "refused" and server.asked == []


@pytest.mark.slow
def test_no_beacon_is_sent(faulty_page, server):
    faulty_page.open()
    faulty_page.browser.value(f"navigator.sendBeacon('http://127.0.0.1:{server.server_port}/it', 'x'); null")
    time.sleep(0.2)
    assert server.asked == []


# ---- the package for JavaScript


class QuietHandler(http.server.SimpleHTTPRequestHandler):
    def log_message(self, *_):
        pass


@pytest.fixture
def package(module, tmp_path):
    """The address of a page that signs and verifies by the package, in its thread and in a worker."""
    folder = tmp_path / "package"
    shutil.copytree(HERE / "bindings/javascript", folder, ignore=shutil.ignore_patterns("tests", "*.wasm"))
    shutil.copy(module, folder / "slh.wasm")
    (folder / "worker.mjs").write_text(PROGRAM + "postMessage(answers);")
    (folder / "index.html").write_text(f"<p id=verdict><script type=module>{PROGRAM}window.answers = answers;"
                                       "new Worker('worker.mjs', { type: 'module' }).onmessage = ({ data }) => "
                                       "window.others = data;</script>")
    handler = functools.partial(QuietHandler, directory=folder)
    with http.server.ThreadingHTTPServer(("127.0.0.1", 0), handler) as server:
        threading.Thread(target=server.serve_forever, daemon=True).start()
        yield f"http://127.0.0.1:{server.server_port}/index.html"
        server.shutdown()


@pytest.mark.slow
def test_package_for_javascript_signs_and_verifies(chromium, package):
    chromium.go(package)
    chromium.wait_for("window.answers && window.others")
    assert chromium.value("window.answers") == [True] * 4
    assert chromium.value("window.others") == [True] * 4
