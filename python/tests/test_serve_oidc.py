"""`gandovel serve --oidc`: tokens of an OpenID issuer that is made here, right and wrong in each way."""
from __future__ import annotations

import http.server
import json
import subprocess
import sys
import threading
import time

import pytest
from authlib.jose import JsonWebKey, jwt

from served import Served, environment, prepared, tokens
from session_register import grid_city

CITY, RINGS = grid_city(4, 4, 1)


@pytest.fixture(scope="module")
def issuer():
    """An issuer on this machine: its address, and what makes tokens."""
    key, other = (JsonWebKey.generate_key("RSA", 2048, {"kid": kid}, is_private=True) for kid in ("one", "two"))

    class Answers(http.server.BaseHTTPRequestHandler):
        def do_GET(self):
            told = {
                "/.well-known/openid-configuration": {"issuer": address, "jwks_uri": f"{address}/keys"},
                "/keys": {"keys": [key.as_dict(is_private=False)]},
            }.get(self.path)
            self.send_response(200 if told else 404)
            self.end_headers()
            self.wfile.write(json.dumps(told).encode())

        def log_message(self, *given):
            pass

    server = http.server.ThreadingHTTPServer(("127.0.0.1", 0), Answers)
    address = f"http://127.0.0.1:{server.server_port}"
    threading.Thread(target=server.serve_forever, daemon=True).start()

    def made(by=key, alg="RS256", kid="one", **claims):
        given = {"iss": address, "aud": "gandovel", "exp": int(time.time()) + 600, "sub": "u-1", "roles": ["clerk"]}
        given.update(claims)
        given = {name: it for name, it in given.items() if it is not None}
        return jwt.encode({"alg": alg, "kid": kid}, given, by).decode()

    yield address, made, key, other
    server.shutdown()


@pytest.fixture(scope="module")
def served(issuer, tmp_path_factory):
    folder = tmp_path_factory.mktemp("oidc")
    made = tokens(folder / "tokens", anna="reader")
    words = ("--oidc", issuer[0], "--tokens", str(folder / "tokens"))
    with Served(prepared(folder / "work", CITY, RINGS), folder / "register.txt", *words) as served:
        served.own = made["anna"]
        yield served
        assert served.end() == 0


def asked(served, token, path="/entries", method="GET", **more):
    return served.ask(path, method, headers={"Authorization": f"Bearer {token}"}, **more)


def test_a_clerk_of_the_issuer_edits(served, issuer):
    _, made, _, _ = issuer
    token = made(preferred_username="eva@town.example")
    answer = asked(served, token, "/edits", "POST", json={"kind": "merge", "one": 1, "other": 2})
    assert answer.status_code == 200 and answer.json()["who"] == "eva@town.example"
    assert asked(served, token, "/metrics").status_code == 403
    assert asked(served, made(roles=["reader", "operator"]), "/metrics").status_code == 200
    keycloak = made(roles=None, realm_access={"roles": ["offline_access", "reader"]})
    assert asked(served, keycloak).status_code == 200
    edit = {"json": {"kind": "merge", "one": 3, "other": 4}}
    assert asked(served, keycloak, "/edits", "POST", **edit).status_code == 403
    assert asked(served, served.own).status_code == 200
    schemes = asked(served, token, "/api").json()["components"]["securitySchemes"]
    assert schemes["openid"]["openIdConnectUrl"] == issuer[0] + "/.well-known/openid-configuration"


def test_what_is_no_token_of_the_issuer(served, issuer):
    _, made, key, other = issuer
    public = key.as_pem(is_private=False)
    wrong = [
        made(exp=int(time.time()) - 60),
        made(exp=None),
        made(nbf=int(time.time()) + 600),
        made(aud="another"),
        made(aud=None),
        made(iss="http://evil.example"),
        made(iss=None),
        made(roles=["owner"]),
        made(roles=None),
        made(sub="a name, with a comma"),
        made(sub=None),
        made(by=other),
        made(by=other, kid="two"),
        made()[:-4] + "AAAA",
        "e30.e30.",
        "a.b.c",
    ]
    forged = made().split(".")
    none = "eyJhbGciOiJub25lIiwia2lkIjoib25lIn0"  # {"alg":"none","kid":"one"}
    wrong += [f"{none}.{forged[1]}.", f"{none}.{forged[1]}.{forged[2]}"]
    secret = JsonWebKey.import_key(b"x" * 300, {"kty": "oct"})
    wrong.append(made(by=secret, alg="HS256"))
    assert public.startswith(b"-----BEGIN")
    for at, token in enumerate(wrong):
        assert asked(served, token).status_code == 401, at
    assert asked(served, made()).status_code == 200


def test_a_token_ends(served, issuer):
    """A token that was taken is not, once it is over: its end is looked at each time."""
    _, made, _, _ = issuer
    token = made(exp=int(time.time()) - 27)  # within the half minute that clocks may differ by
    assert asked(served, token).status_code == 200
    time.sleep(5)
    assert asked(served, token).status_code == 401


def test_an_issuer_that_is_none(issuer, tmp_path):
    folder = prepared(tmp_path / "work", CITY, RINGS)
    for address, text in (
        ("http://example.org", "begins with https://"),
        (issuer[0] + "/other", "does not answer as an OpenID issuer"),
        ("ftp://127.0.0.1", "begins with https://"),
    ):
        words = [sys.executable, "-m", "gandovel", "serve", str(folder), "--journal", str(tmp_path / "j")]
        ended = subprocess.run(
            [*words, "--oidc", address], env=environment(), capture_output=True, text=True, timeout=120
        )
        assert ended.returncode == 1 and ended.stderr.startswith("error: W7 ") and text in ended.stderr, ended.stderr
