"""TLS 1.3 by the provider `slh`, between `openssl s_server` and `openssl s_client`: both ends sign by each set, and
each verifies the other. A client that lacks the code points is refused.
"""
import re
import subprocess
import time

import pytest

from provider import CA_CONFIG, SETS, Folder, succeeded
from support import PATIENCE

QUICK = "128f"
REQUEST = b"GET / HTTP/1.0\r\n\r\n"


class Ends:
    """A server and a client in a folder, each with a key and a certificate, and the socket between them."""

    def __init__(self, folder):
        self.folder, self.server = folder, None
        self.tls = folder.provider.changed_config(folder.path / "tls.cnf", ("^# tls = draft", "tls = draft"))
        folder.write("ca.cnf", CA_CONFIG.encode())

    def make(self, name, of_set):
        words = ["req", "-config", "ca.cnf", "-x509", "-newkey", f"SLH-DSA-SHA2-{of_set}", "-nodes"]
        succeeded(self.folder.under(self.tls, *words, "-subj", "/CN=localhost", "-keyout", f"{name}.key", "-out",
                                    f"{name}.pem"))

    def serve(self, config, *words):
        """Starts a server for one client, which answers with what it saw. Whether it is there, once its socket is."""
        command = [self.folder.provider.openssl, "s_server", "-unix", "socket", "-naccept", "1", "-www", "-cert",
                   "server.pem", "-key", "server.key", *words]
        env = {**self.folder.provider.env, "OPENSSL_CONF": str(config)}
        with open(self.folder.path / "server.out", "wb") as file:
            self.server = subprocess.Popen(command, cwd=self.folder.path, env=env, stdout=file, stderr=file)
        for _ in range(10 * PATIENCE):
            if (self.folder.path / "socket").exists() or self.server.poll() is not None:
                break
            time.sleep(0.1)
        return self.server.poll() is None

    def connect(self, config, *words):
        """The client's status, what it said, and what the server said by its end."""
        client = ["s_client", "-unix", "socket", "-ign_eof", "-CAfile", "server.pem", "-verify_return_error", "-brief"]
        done = self.folder.under(config, *client, *words, stdin=REQUEST)
        self.server.wait(PATIENCE)
        return done.status, (done.output + done.errors).decode(errors="replace"), self.server_said()

    def server_said(self):
        return self.folder.read("server.out").decode(errors="replace")


@pytest.fixture
def ends(provider, tmp_path):
    made = Ends(Folder(provider, tmp_path))
    yield made
    if made.server:
        made.server.kill()
        made.server.wait()


@pytest.fixture
def served(ends):
    """The same with a server's certificate of 128f."""
    ends.make("server", QUICK)
    return ends


@pytest.mark.parametrize("of_set", [
    pytest.param(it, marks=() if it == QUICK else pytest.mark.slow) for it in (name.split("-")[-1] for name in SETS)])
def test_tls_1_3(ends, of_set):
    """Both ends sign, and each verifies the other."""
    for name in "server", "client":
        ends.make(name, of_set)
    assert ends.serve(ends.tls, "-Verify", "2", "-verify_return_error", "-CAfile", "client.pem"), ends.server_said()
    status, said, of_server = ends.connect(ends.tls, "-cert", "client.pem", "-key", "client.key")
    lines = [f"Signature type: slhdsa_sha2_{of_set}", f"Peer signature type: slhdsa_sha2_{of_set}"]
    assert status == 0 and set(lines) <= set(said.splitlines()), (status, said, of_server)
    assert re.search("(?m)^Verification: OK", said) and re.search("(?m)^New, TLSv1.3", said), said


@pytest.mark.slow
@pytest.mark.parametrize("how", ["without-slh", "without-the-word"])
def test_client_without_the_code_points_is_refused(served, provider, how):
    """Neither end hangs."""
    plain = served.folder.write("plain.cnf", b"nothing = 1\n")
    assert served.serve(served.tls)
    status, said, of_server = served.connect(plain if how == "without-slh" else provider.config)
    assert status != 0 and "handshake failure" in said
    assert re.search("no (shared|suitable) signature algorithm|unknown certificate type", of_server), of_server


@pytest.mark.slow
def test_tls_needs_the_word_of_the_configuration(served, provider):
    """Without it no program is told of TLS, and a server with such a certificate does not start."""
    listed = [succeeded(served.folder.under(it, "list", "-tls-signature-algorithms")).output
              for it in (served.tls, provider.config)]
    assert b"slhdsa_sha2_128f" in listed[0] and b"slhdsa" not in listed[1]
    assert not served.serve(provider.config) and "unknown certificate type" in served.server_said()


@pytest.mark.slow
def test_tls_1_2_is_refused(served):
    """It has no code points for signature algorithms of providers."""
    assert served.serve(served.tls)
    status, said, _ = served.connect(served.tls, "-tls1_2")
    assert status != 0 and "handshake failure" in said
