"""TLS of `gandovel serve`, and that no client shuts others out: handshakes, connections and streams."""
from __future__ import annotations

import os
import re
import resource
import socket
import ssl
import subprocess
import time

import pytest
import requests

from served import Served, prepared, tokens
from session_register import grid_city

CITY, RINGS = grid_city(4, 4, 1)
SILENT = 6_000 if os.environ.get("GANDOVEL_FULL") else 1_500


@pytest.fixture(scope="module")
def layer(tmp_path_factory):
    return prepared(tmp_path_factory.mktemp("layer") / "work", CITY, RINGS)


@pytest.fixture(scope="module")
def secure(layer, tmp_path_factory):
    folder = tmp_path_factory.mktemp("tls")
    files = [str(folder / name) for name in ("key.pem", "cert.pem")]
    words = "openssl req -x509 -newkey rsa:2048 -nodes -days 2 -subj /CN=localhost -addext subjectAltName=IP:127.0.0.1"
    subprocess.run([*words.split(), "-keyout", files[0], "-out", files[1]], check=True, stderr=subprocess.DEVNULL)
    with Served(layer, folder / "register.txt", "--keyfile", files[0], "--certfile", files[1]) as served:
        served.session.verify, served.session.trust_env = files[1], False
        served.certificate = files[1]
        yield served
        assert served.end() == 0
        assert "Traceback" not in (folder / "serve.log").read_text()


def place_of(served):
    host, port = re.fullmatch(r"https?://(.*):(\d+)", served.address).groups()
    return host, int(port)


def handshake(served, *words):
    """What openssl tells of a handshake with these words: whether it came about, and its cipher."""
    host, port = place_of(served)
    command = ["openssl", "s_client", "-connect", f"{host}:{port}", *words]
    ended = subprocess.run(command, input="", capture_output=True, text=True, timeout=60)
    found = re.search(r"Cipher is (\S+)", ended.stdout)
    return found[1] if found and found[1] != "(NONE)" else None


def test_ciphers(secure):
    """Of TLS 1.2 only those that authenticate what they encrypt; nothing older."""
    for name in ("ECDHE-RSA-AES128-GCM-SHA256", "ECDHE-RSA-AES256-GCM-SHA384", "ECDHE-RSA-CHACHA20-POLY1305"):
        assert handshake(secure, "-tls1_2", "-cipher", name) == name
    all_others = ["ECDHE-RSA-AES128-SHA256", "ECDHE-RSA-AES256-SHA384", "ECDHE-RSA-AES128-SHA", "ECDHE-RSA-AES256-SHA"]
    for name in [*all_others, "AES128-GCM-SHA256", "AES128-SHA256", "AES128-SHA"]:
        assert handshake(secure, "-tls1_2", "-cipher", f"{name}:@SECLEVEL=0") is None, name
    assert handshake(secure, "-tls1_3") in ("TLS_AES_256_GCM_SHA384", "TLS_AES_128_GCM_SHA256")
    for version in ("-tls1_1", "-tls1"):
        assert handshake(secure, version, "-cipher", "ALL:@SECLEVEL=0") is None


def test_headers_and_early_data(secure):
    """A request that comes with the end of the handshake is answered; and a browser is told to keep to TLS."""
    answer = secure.ask("/health")
    assert answer.headers["strict-transport-security"].startswith("max-age=")
    assert answer.headers["x-content-type-options"] == "nosniff" and "content-security-policy" in answer.headers
    context = ssl.create_default_context(cafile=secure.certificate)
    host, port = place_of(secure)
    request = f"GET /health HTTP/1.1\r\nHost: {host}:{port}\r\nConnection: close\r\n\r\n".encode()
    for _ in range(50):
        with context.wrap_socket(socket.create_connection((host, port), 60), server_hostname=host) as one:
            one.sendall(request)
            assert one.recv(1 << 16).startswith(b"HTTP/1.1 200")


def test_silent_connections_before_the_handshake(secure):
    """They keep nobody out, and are closed: each has ten seconds, and of one address 256 are waited for."""
    soft, hard = resource.getrlimit(resource.RLIMIT_NOFILE)
    resource.setrlimit(resource.RLIMIT_NOFILE, (min(hard, SILENT + 1000), hard))
    silent, waits = [], []
    try:
        for at in range(SILENT):
            silent.append(socket.create_connection(place_of(secure), 60))
            if at % 100 == 99:
                begun = time.monotonic()
                with requests.Session() as session:
                    session.trust_env = False
                    answer = session.get(f"{secure.address}/health", verify=secure.certificate, timeout=60)
                assert answer.json()["state"] == "serving"
                waits.append(time.monotonic() - begun)
        assert max(waits) < 5, waits
        time.sleep(11)
        last = silent[-1]
        last.settimeout(60)
        try:
            assert last.recv(10) == b""
        except ConnectionResetError:
            pass
    finally:
        for one in silent:
            one.close()
        resource.setrlimit(resource.RLIMIT_NOFILE, (soft, hard))


def opened(served, path, token):
    """A connection on which this was asked, and the status of its answer."""
    host, port = place_of(served)
    one = socket.create_connection((host, port), 60)
    one.sendall(f"GET {path} HTTP/1.1\r\nHost: {host}:{port}\r\nAuthorization: Bearer {token}\r\n\r\n".encode())
    return one, int(one.recv(1 << 12).split(b" ", 2)[1])


def test_streams_of_one_client(layer, tmp_path):
    """999 `/changes` of one client: an eighth of the connections is its share, and all others are answered."""
    made = tokens(tmp_path / "tokens", anna="clerk", eva="reader")
    with Served(layer, tmp_path / "register.txt", "--tokens", str(tmp_path / "tokens"), "--rate", "0") as served:
        held = [opened(served, "/changes", made["eva"]) for _ in range(999)]
        statuses = [status for _, status in held]
        assert statuses.count(200) == 125 and statuses.count(429) == 874
        served.token = made["anna"]
        assert served.edit("merge 1 2").status_code == 200
        one, status = opened(served, "/changes?after=0", made["anna"])
        assert status == 200
        for other, _ in (*held, (one, 0)):
            other.close()
        served.token = made["eva"]
        assert served.ask("/entries").status_code == 200
        end = time.monotonic() + 60
        while True:
            again, status = opened(served, "/changes", made["eva"])
            again.close()
            if status == 200:
                break
            assert time.monotonic() < end
            time.sleep(0.2)
        assert served.end() == 0
