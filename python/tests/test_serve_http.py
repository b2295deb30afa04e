"""`gandovel serve` as the standards want it: the definition of the API, methods, caches, packing, other origins; and
requests at random, none of which is a fault of the server's."""
from __future__ import annotations

import gzip
import json
import os
import random
import socket
import string
from pathlib import Path
from urllib.parse import quote, urlsplit

import jsonschema
import pytest
import requests

from served import NORTH, EAST, Served, prepared, pretty, tokens
from session_register import grid_city

CITY, RINGS = grid_city(8, 8, 1)
REQUESTS = 26_000 if os.environ.get("GANDOVEL_FULL") else 3_000
OAI = json.loads((Path(__file__).parent / "openapi_3.0_schema.json").read_text())
"""The schema of the OpenAPI Initiative for OpenAPI 3.0, under the Apache License 2.0."""
ADDRESSES = ["/", "/conformance", "/api", "/collections", "/collections/parcels", "/collections/parcels/items"]
ADDRESSES += ["/collections/parcels/items/66", "/collections/parcels/schema", "/collections/parcels/queryables"]
ADDRESSES += ["/collections/zones/feature-schema", "/parcels", "/parcels/66", "/parcels/1/history", "/parcels/4/zones"]
ADDRESSES += ["/overlay", "/entries", "/health", "/page/register.js", "/page/map/leaflet.css", "/tileMatrixSets"]
ADDRESSES += ["/collections/parcels/tiles/WebMercatorQuad", "/styles", "/styles/zones", "/parcels/66/lineage"]


@pytest.fixture(scope="module")
def served(tmp_path_factory):
    folder = tmp_path_factory.mktemp("http")
    layer = prepared(folder / "work", CITY, RINGS)
    with Served(layer, folder / "register.txt", "--cors", "https://maps.example") as served:
        for line in ("merge 1 2", "merge 9 10", "merge 33 34", "merge 35 36", "merge 49 50"):
            assert served.edit(line).status_code == 200
        yield served
        assert served.end() == 0
        assert "Traceback" not in folder.joinpath("serve.log").read_text()


def definition(served):
    return served.ask("/api").json()


def test_the_definition_is_valid(served):
    """By the schema of OpenAPI 3.0; and each reference has a target."""
    document = definition(served)
    jsonschema.Draft4Validator(OAI).validate(document)
    text = json.dumps(document)
    targets = {it.partition('"')[0] for it in text.split('"$ref": "')[1:]}
    assert targets and all(it.startswith("#/components/schemas/") for it in targets)
    assert {it.rpartition("/")[2] for it in targets} <= set(document["components"]["schemas"])
    assert set(document["components"]["securitySchemes"]) == {"token", "name_and_token"} and document["security"]
    for path, methods in document["paths"].items():
        for operation in methods.values():
            assert "400" in operation["responses"] and {"422"} & set(operation["responses"]) <= {"422"}
            assert path == "/edits" or "422" not in operation["responses"]
            named = {it["name"] for it in operation.get("parameters", []) if it["in"] == "path"}
            assert named == {it[1:-1] for it in path.split("/") if it.startswith("{")}
    body = document["paths"]["/locate"]["post"]["requestBody"]
    assert body["required"] and "points" in document["components"]["schemas"]["Points"]["properties"]


def test_answers_are_as_they_are_defined(served):
    """Each answer with a model in the definition, and each refusal, is of that form."""
    document = definition(served)
    for path, method, more, name in (
        ("/locate?x=600000001&y=5500000001", "GET", {}, "Place"),
        ("/locate", "POST", {"json": {"points": [[EAST, NORTH], [0, 0]]}}, "ManyPlaces"),
        ("/parcels?limit=5", "GET", {}, "Parcels"),
        ("/parcels/5", "GET", {}, "Parcel"),
        ("/parcels/1/history", "GET", {}, "History"),
        ("/parcels/4/zones", "GET", {}, "ParcelZones"),
        ("/overlay", "GET", {}, "Overlay"),
        ("/entries", "GET", {}, "Entries"),
        ("/health", "GET", {}, "Health"),
        ("/parcels/66/lineage", "GET", {}, "Lineage"),
        ("/?f=json", "GET", {}, "Landing"),
        ("/conformance", "GET", {}, "Conformance"),
        ("/collections", "GET", {}, "Collections"),
        ("/collections/split", "GET", {}, "Collection"),
        ("/collections/history/schema", "GET", {}, "Schema"),
        ("/collections/history/items?limit=20", "GET", {}, "FeatureCollection"),
        ("/collections/zones/items/1", "GET", {}, "Feature"),
        ("/parcels/1", "GET", {}, "Refusal"),
        ("/edits", "POST", {"json": {"kind": "merge", "one": 1, "other": 5}}, "Refusal"),
        ("/locate", "POST", {"json": {"points": [[1.5, 2]]}}, "Refusal"),
        ("/locate", "POST", {"data": "x"}, "Refusal"),
        ("/nothing", "GET", {}, "Refusal"),
    ):
        answer = served.ask(path, method, **more)
        schema = {"$ref": f"#/components/schemas/{name}", "components": nullable(document["components"])}
        jsonschema.Draft7Validator(schema).validate(answer.json())
        assert (answer.status_code == 200) != (name == "Refusal"), pretty(answer)


def nullable(value):
    """A schema as JSON schema has it: what pydantic leaves out may be null."""
    if isinstance(value, dict):
        told = {key: nullable(it) for key, it in value.items()}
        required = set(told.get("required", []) if isinstance(told.get("required"), list) else [])
        if isinstance(told.get("properties"), dict):
            for key, it in told["properties"].items():
                if key not in required and isinstance(it, dict):
                    told["properties"][key] = {"anyOf": [it, {"type": "null"}]}
        return told
    return [nullable(it) for it in value] if isinstance(value, list) else value


def test_features_are_as_their_schema_says(served):
    for name in ("parcels", "zones", "split"):
        links = {it["rel"]: it for it in served.ask(f"/collections/{name}").json()["links"]}
        told = served.ask(urlsplit(links["describedby"]["href"]).path)
        assert told.headers["content-type"] == links["describedby"]["type"] == "application/schema+json"
        schema = told.json()
        schema["properties"]["geometry"] = {"type": "object"}  # else it is looked for on the web
        features = served.ask(f"/collections/{name}/items?limit=1000").json()["features"]
        for feature in features:
            jsonschema.Draft202012Validator(schema).validate(feature)
            assert set(feature["properties"]) == {*schema["properties"]["properties"]["properties"], "id"}
        flat = served.ask(urlsplit(links["http://www.opengis.net/def/rel/ogc/1.0/schema"]["href"]).path).json()
        assert set(flat["properties"]) == {*features[0]["properties"], "geometry"}
        asked = served.ask(urlsplit(links["http://www.opengis.net/def/rel/ogc/1.0/queryables"]["href"]).path).json()
        assert asked["properties"] == flat["properties"] and asked["additionalProperties"] is False


@pytest.mark.parametrize("path", ADDRESSES)
def test_methods(served, path):
    """HEAD is GET without the body; what an address takes is told; no other parameter is taken."""
    full, head = served.ask(path), served.ask(path, "HEAD")
    assert full.status_code == head.status_code == 200 and head.content == b"" and full.content
    changing = {"date", "content-length"}
    assert {name for name in full.headers if name not in changing} == {
        name for name in head.headers if name not in changing
    }
    for method in ("PUT", "DELETE", "PATCH"):
        answer = served.ask(path, method)
        assert (answer.status_code, answer.headers["allow"]) == (405, "GET, HEAD, OPTIONS")
    options = served.ask(path, "OPTIONS")
    assert (options.status_code, options.headers["allow"]) == (204, "GET, HEAD, OPTIONS")
    for query in ("unknown=1", "f=json&f=json"):
        answer = served.ask(f"{path}?{query}")
        assert answer.status_code == 400 or path.startswith("/page/"), query
    assert full.headers["x-content-type-options"] == "nosniff"
    assert "default-src 'self'" in full.headers["content-security-policy"]
    assert "strict-transport-security" not in full.headers


def test_other_methods(served):
    assert served.ask("/locate", "PUT").headers["allow"] == "GET, HEAD, OPTIONS, POST"
    assert served.ask("/edits").headers["allow"] == "OPTIONS, POST"
    assert served.ask("/changes", "HEAD").headers["content-type"].startswith("text/event-stream")
    head = served.ask("/locate?x=1&y=1", "HEAD")
    assert (head.status_code, head.content) == (200, b"")


def test_caches(served):
    """What has not changed since is 304; an edit changes it."""
    for path in (
        "/collections/parcels/items?limit=3",
        "/parcels?limit=2",
        "/overlay",
        "/collections",
        "/page/checks.js",
    ):
        first = served.ask(path)
        assert first.headers["vary"] == "Accept, Accept-Encoding" and first.headers["cache-control"] == "no-cache"
        tag = first.headers["etag"]
        for given in (tag, f'"x", {tag}', "*", tag.replace("W/", "")):
            again = served.ask(path, headers={"If-None-Match": given})
            assert (again.status_code, again.content, again.headers["etag"]) == (304, b"", tag), path
        assert served.ask(path, headers={"If-None-Match": '"other"'}).status_code == 200
    page = served.ask("/collections/parcels/items?limit=3&f=html")
    json_ = served.ask("/collections/parcels/items?limit=3")
    assert page.headers["etag"] != json_.headers["etag"]
    assert served.edit("merge 57 58").status_code == 200
    after = served.ask("/collections/parcels/items?limit=3", headers={"If-None-Match": json_.headers["etag"]})
    assert after.status_code == 200 and after.headers["etag"] != json_.headers["etag"]


def test_packing(served):
    path = "/collections/parcels/items"
    for accepts, packed in (("gzip", True), ("br, gzip;q=0.5", True), ("*", True), ("gzip;q=0", False), ("", False)):
        answer = served.session.get(served.address + path, headers={"Accept-Encoding": accepts}, stream=True)
        raw = answer.raw.read()
        assert (answer.headers.get("content-encoding") == "gzip") == packed, accepts
        features = json.loads(gzip.decompress(raw) if packed else raw)["features"]
        assert len(raw) == int(answer.headers["content-length"]) and len(features) > 50


def test_links_are_headers(served):
    answer = served.ask("/collections/parcels/items?limit=2")
    assert {it["rel"] for it in answer.json()["links"]} == set(answer.links)
    following = requests.get(answer.links["next"]["url"], timeout=60).json()
    assert following["features"][0]["id"] not in {it["id"] for it in answer.json()["features"]}


def test_pages_of_other_sites(served):
    """Of the origin that the operator named they may read, and not edit."""
    ours, theirs = {"Origin": "https://maps.example"}, {"Origin": "https://evil.example"}
    answer = served.ask("/collections", headers=ours)
    assert (
        answer.headers["access-control-allow-origin"] == "https://maps.example" and "Origin" in answer.headers["vary"]
    )
    assert "access-control-allow-origin" not in served.ask("/collections", headers=theirs).headers
    asks = {"Access-Control-Request-Method": "GET", "Access-Control-Request-Headers": "authorization"}
    assert served.ask("/entries", "OPTIONS", headers={**ours, **asks}).status_code == 200
    assert served.ask("/entries", "OPTIONS", headers={**theirs, **asks}).status_code == 400
    edits = {**ours, "Access-Control-Request-Method": "POST"}
    assert served.ask("/edits", "OPTIONS", headers=edits).status_code == 400
    for origin in (ours, theirs):
        assert served.edit("merge 41 42", **origin).status_code == 403


@pytest.mark.parametrize(
    "moment, status",
    [
        ("2026-13-01T00:00:00Z", 400),
        ("2026-02-30T00:00:00Z", 400),
        ("2026-01-01T25:00:00Z", 400),
        ("2026-01-01T00:00:00+99:00", 400),
        ("2026-01-02T00:00:00Z/2026-01-01T00:00:00Z", 400),
        ("..", 400),
        ("../..", 400),
        ("/", 400),
        ("2026-01-01", 400),
        ("2000-01-01T00:00:00Z", 200),
        ("2000-01-01T00:00:00.5+02:00/..", 200),
        ("/2100-01-01T00:00:00Z", 200),
        ("2100-01-01t00:00:00z", 200),
    ],
)
def test_moments(served, moment, status):
    answer = served.ask("/collections/parcels/items", params={"datetime": moment})
    assert answer.status_code == status, pretty(answer)


def test_the_register_as_it_was(served):
    """Before the first edit all parcels are as the layer had them; an interval has those that went in it, too."""
    entries = len(served.lines())

    def count(moment):
        answer = served.ask("/collections/parcels/items", params={"datetime": moment, "limit": 1})
        return answer.json()["numberMatched"], int(answer.headers["gandovel-entries"])

    now = served.ask("/collections/parcels/items?limit=1").json()["numberMatched"]
    assert count("2000-01-01T00:00:00Z") == (64, 0)
    assert count("2100-01-01T00:00:00Z") == (now, entries)
    born = len({it for record in served.ask("/entries").json()["records"] for it in record["new"]})
    assert count("2000-01-01T00:00:00Z/..") == (64 + born, entries)
    assert count("../2000-01-01T00:00:00Z") == (64, 0)


@pytest.mark.parametrize(
    "path", ["/page/" + "a" * 300, "/page/%00", "/page/map/%00", "/collections/%00/items", "/" + "x" * 5000, "/page//"]
)
def test_addresses_that_are_none(served, path):
    assert served.ask(path).status_code == 404


@pytest.mark.parametrize(
    "body",
    ['{"kind": []}', '{"kind": {}}', '{"kind": null}', '{"kind": 1}', '{"kind": "merge", "one": [], "other": {}}', "1"]
    + ['{"kind": "line", "line": []}', '{"kind": "split", "parcel": 1, "path": {}}', '"merge"', "null", "[[]]", ""],
)
def test_bodies_that_are_none(served, body):
    answer = served.ask("/edits", "POST", data=body, headers={"Content-Type": "application/json"})
    assert answer.status_code == 400 and answer.json()["description"], pretty(answer)
    assert served.ask("/locate", "POST", data=body, headers={"Content-Type": "application/json"}).status_code == 400


WORDS = ["parcels", "split", "zones", "items", "1", "70", "-1", "schema", "queryables", "history", "%00", "%2e%2e", "é"]
WORDS += [
    "",
    "9" * 30,
    "a" * 300,
    "null",
    "NaN",
    "1e400",
    "%ff%fe",
    "..",
    "\ud800",
    "[]",
    "{}",
    "'",
    '"',
    ";",
    "%0d%0a",
]
NAMES = ["bbox", "bbox-crs", "limit", "offset", "entries", "crs", "f", "x", "y", "after", "number", "why", "datetime"]
NAMES += ["filter", "filter", "filter", "filter-lang", "filter-crs", "sortby", "properties", "box"]
VALUES = ["http://www.opengis.net/def/crs/EPSG/0/3857", "http://www.opengis.net/def/crs/OGC/1.3/CRS84", "-1e308"]
VALUES += [
    "-180,-90,180,90",
    "1,2,3",
    "nan,nan,nan,nan",
    "0,0,0,0,0,0",
    "1e308,1e308,1e308,1e308",
    "../..",
    "2026-01-01",
]
VALUES += ["0001-01-01T00:00:00+23:59", "9999-12-31T23:59:59-23:59", "9999-12-31T23:59:60Z", "html", "json", "١٢", "²"]
VALUES += ["number = 'A1' AND NOT area_m2 > 1e3", "S_INTERSECTS(geometry, BBOX(1, 2, 3))", "(" * 99, "NOT " * 99]
VALUES += [
    "S_INTERSECTS(geometry, POINT(1e300 -1e300))",
    '{"op":"and","args":[]}',
    "cql2-json",
    "cql2-text",
    "'",
    "id=1e999",
]
VALUES += [
    '{"op":"=","args":[{"property":"id"},1e400]}',
    '{"op":"s_intersects","args":[{"property":"geometry"},{"bbox":[]}]}',
]
VALUES += [
    "since > TIMESTAMP('0001-01-01T00:00:00Z')",
    "DATE('2026-02-30') = until",
    "-area_m2,number",
    "qml",
    "mapbox",
]
BODIES = ['{"kind": %s}', '{"kind":"merge","one":%s,"other":%s}', '{"points":%s}', '{"points":[[%s,%s]]}', "%s", "[%s]"]
BODIES += ['{"kind":"line","line":%s}', '{"kind":"split","parcel":%s,"path":[[%s,1],[2,3]],"why":%s}']
PLACES = [
    "/collections",
    "/parcels",
    "/locate",
    "/entries",
    "/overlay",
    "/edits",
    "/health",
    "/api",
    "/",
    "/page",
    "/metrics",
    "/collections/parcels/items",
    "/collections/history/items",
    "/collections/parcels/tiles",
    "/collections/zones/tiles/WebMercatorQuad",
    "/styles",
]


def test_no_request_is_a_fault(served):
    """Requests at random, near to what there is: none is answered by 500, and each refusal says why."""
    draw, host = random.Random(87), urlsplit(served.address).netloc
    seen = set()
    with socket.create_connection(tuple(served_at(served)), 60) as one:
        for _ in range(REQUESTS):
            request = written(draw, host)
            status, headers, body = answered(one, request)
            assert status != 500, request
            seen.add(status)
            if status >= 400 and not request.startswith((b"HEAD", b"OPTIONS")) and b"json" in headers:
                assert json.loads(body)["description"], request
            if b"connection: close" in headers.lower():
                one.close()
                one = socket.create_connection(tuple(served_at(served)), 60)
    assert {200, 400, 404, 405} <= seen


def served_at(served):
    name, _, port = urlsplit(served.address).netloc.partition(":")
    return name, int(port)


def written(draw, host):
    """A request at random."""

    def value():
        kinds = [draw.choice(WORDS), draw.choice(VALUES), str(draw.randrange(-10, 100)), repr(draw.uniform(-1e9, 1e9))]
        kinds += [",".join(repr(draw.uniform(-200, 200)) for _ in range(draw.choice((4, 6))))]
        kinds += ["".join(draw.choices(string.printable, k=draw.randrange(8)))]
        return draw.choice(kinds)

    path = draw.choice(PLACES) + "".join("/" + draw.choice(WORDS) for _ in range(draw.randrange(4)))
    query = "&".join(f"{draw.choice(NAMES)}={safe(value())}" for _ in range(draw.choice((0, 1, 1, 2, 3))))
    method = draw.choice(["GET"] * 6 + ["POST"] * 3 + ["HEAD", "PUT", "DELETE", "OPTIONS", "PATCH", "TRACE"])
    text = draw.choice(BODIES)
    words = ["[]", "{}", "null", "1", "-1", "1.5", '"x"', "true", "1e999", "[[[]]]", '"\\ud800"', "9" * 30]
    while "%s" in text:
        text = text.replace("%s", draw.choice(words), 1)
    body = text.encode() if method in ("POST", "PUT", "PATCH") else b""
    kind = draw.choice(["application/json", "text/plain", "x", "", "application/json; charset=x"])
    heads = [f"Host: {host}", f"Content-Type: {kind}", f"Content-Length: {len(body)}"]
    for name in ("If-Match", "If-None-Match", "Idempotency-Key", "Accept", "Accept-Encoding", "Last-Event-ID"):
        if draw.random() < 0.1:
            heads.append(f"{name}: {''.join(c for c in value() if c.isprintable() and c.isascii())}")
    address = safe_path(path) + ("?" + query if query else "")
    if address.partition("?")[0].rstrip("/") == "/changes":
        address = "/"
    return f"{method} {address} HTTP/1.1\r\n".encode() + "\r\n".join(heads).encode() + b"\r\n\r\n" + body


def safe(text):
    return quote(text.encode("utf-8", "surrogatepass"), safe="%,:/.-+")


def safe_path(text):
    return quote(text.encode("utf-8", "surrogatepass"), safe="%/.")


def answered(one, request):
    """The answer to a request on a connection that stays: status, headers, body."""
    one.sendall(request)
    heard = b""
    while b"\r\n\r\n" not in heard:
        part = one.recv(1 << 16)
        assert part, (request, heard)
        heard += part
    headers, _, body = heard.partition(b"\r\n\r\n")
    status = int(headers.split(b" ", 2)[1])
    length = [line.split(b":")[1] for line in headers.lower().split(b"\r\n") if line.startswith(b"content-length:")]
    wanted = 0 if request.startswith(b"HEAD") or status in (204, 304) or not length else int(length[0])
    while len(body) < wanted:
        body += one.recv(1 << 16)
    return status, headers, body


def test_definition_needs_a_token_where_there_are_some(tmp_path):
    made = tokens(tmp_path / "tokens", eva="reader")
    layer = prepared(tmp_path / "work", CITY, RINGS)
    with Served(layer, tmp_path / "register.txt", "--tokens", str(tmp_path / "tokens")) as served:
        assert served.ask("/api").status_code == 401
        served.token = made["eva"]
        document = definition(served)
        assert (
            document["paths"]["/health"]["get"]["security"] == []
            and "security" not in document["paths"]["/overlay"]["get"]
        )
        assert served.end() == 0
