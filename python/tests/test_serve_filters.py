"""OGC API Features, Part 3, and CQL2, by the abstract tests of the standards: each test has their identifiers. SQLite
says what passes a filter, and GEOS what meets a box."""
from __future__ import annotations

import json
import random
import sqlite3
from urllib.parse import urlsplit

import geopandas as gpd
import pandas as pd
import pytest
from shapely.geometry import Point, box, shape

import gandovel

from served import EAST, NORTH, Served, pretty

CQL2, PART3 = "http://www.opengis.net/spec/cql2/1.0", "http://www.opengis.net/spec/ogcapi-features-3/1.0"
OWN = "http://www.opengis.net/def/crs/EPSG/0/25832"
X, Y, SIDE = EAST // 1000, NORTH // 1000, 8
OWNERS = ["ann", "O'Neil", "Ö 7", "", None]


@pytest.fixture(scope="module")
def served(tmp_path_factory):
    """64 squares with attributes of all kinds, some of them null."""
    folder = tmp_path_factory.mktemp("filters")
    cells = [(a, b) for b in range(SIDE) for a in range(SIDE)]
    days = [f"20{at % 20:02}-03-{1 + at % 28:02}" for at in range(64)]
    table = {
        "parcel_no": [f"12-{at}/4" for at in range(1, 65)],
        "owner": [OWNERS[at % 5] for at in range(64)],
        "tax": [at * 37 % 101 for at in range(64)],
        "rate": [at / 4 if at % 7 else None for at in range(64)],
        "is_public": [at % 3 == 0 for at in range(64)],
        "bought": pd.to_datetime([day if at % 6 else None for at, day in enumerate(days)]),
        "Grund und Boden": [f"g{at % 4}" for at in range(64)],
    }
    shapes = [box(X + 10 * a, Y + 10 * b, X + 10 * a + 10, Y + 10 * b + 10) for a, b in cells]
    frame = gpd.GeoDataFrame(table, geometry=shapes, crs=25832)
    gandovel.prepare(frame, number="parcel_no").save(folder / "work")
    with Served(folder / "work", folder / "register.txt") as served:
        for line in ("merge 1 2", "merge 11 12"):
            assert served.edit(line).status_code == 200
        yield served
        assert served.end() == 0


def asked(served, name="parcels", **query):
    """The features that a request finds, on all its pages, in order."""
    more = {key.replace("_", "-"): value for key, value in query.items()}
    answer, found = served.ask(f"/collections/{name}/items", params={"limit": 40, **more}), []
    while True:
        assert answer.status_code == 200, pretty(answer)
        body = answer.json()
        found += body["features"]
        following = [it["href"] for it in body["links"] if it["rel"] == "next"]
        if not following:
            assert body["numberMatched"] == len(found)
            return found
        parts = urlsplit(following[0])
        answer = served.ask(f"{parts.path}?{parts.query}")


def ids(served, **query):
    return [it["id"] for it in asked(served, **query)]


@pytest.fixture(scope="module")
def table(served):
    """The parcels as a table of SQLite, and their shapes in metres."""
    features = asked(served, crs=OWN)
    names = list(features[0]["properties"])
    base = sqlite3.connect(":memory:")
    base.execute(f"create table parcels ({', '.join(quoted(name) for name in names)})")
    for it in features:
        values = [it["properties"][name] for name in names]
        base.execute(f"insert into parcels values ({', '.join('?' * len(names))})", values)
    return base, {it["id"]: shape(it["geometry"]) for it in features}


def quoted(name):
    return f'"{name}"'


def selected(table, condition):
    return [it for it, in table[0].execute(f"select id from parcels where {condition} order by id")]


def test_conformance(served):
    """/conf/queryables, /conf/filter, /conf/features-filter; of CQL2 cql2-text, cql2-json, basic-cql2 and the like."""
    told = served.ask("/conformance").json()["conformsTo"]
    for name in ("queryables", "filter", "features-filter"):
        assert f"{PART3}/conf/{name}" in told
    for name in ("cql2-text", "cql2-json", "basic-cql2", "basic-spatial-functions"):
        assert f"{CQL2}/conf/{name}" in told


def test_queryables(served):
    """/req/queryables/queryables-link, get-op, get-queryables-response; /req/filter/get-conformance."""
    links = {it["rel"]: it for it in served.ask("/collections/parcels").json()["links"]}
    link = links["http://www.opengis.net/def/rel/ogc/1.0/queryables"]
    answer = served.ask(urlsplit(link["href"]).path)
    body = answer.json()
    assert answer.headers["content-type"] == link["type"] == "application/schema+json"
    assert body["$schema"] == "https://json-schema.org/draft/2020-12/schema" and body["type"] == "object"
    assert body["$id"] == link["href"] and body["additionalProperties"] is False
    assert body["properties"]["geometry"]["format"] == "geometry-polygon"
    kinds = {name: it.get("format", it.get("type")) for name, it in body["properties"].items()}
    assert kinds["tax"] == "integer" and kinds["rate"] == "number" and kinds["owner"] == "string"
    assert kinds["bought"] == "date" and kinds["is_public"] == "boolean" and kinds["Grund und Boden"] == "string"
    for name in set(kinds) - {"geometry"}:  # each may be asked for
        assert served.ask("/collections/parcels/items", params={"filter": f'"{name}" IS NULL'}).status_code == 200


def test_parameters(served):
    """/req/filter/filter-param, filter-lang-param, filter-crs-param; /req/features-filter/filter-param: as defined."""
    paths = served.ask("/api").json()["paths"]
    named = {it["name"]: it for it in paths["/collections/{collectionId}/items"]["get"]["parameters"]}
    for name in ("filter", "filter-lang", "filter-crs", "sortby", "properties"):
        assert named[name]["in"] == "query" and not named[name]["required"]
        assert named[name]["schema"]["type"] == "string"
    for query in ({"filter": "tax = 1", "filter-lang": "cql"}, {"filter": "tax = 1", "filter-crs": "x"}):
        assert served.ask("/collections/parcels/items", params=query).status_code == 400


TEXT_AND_SQL = [
    ("owner = 'ann'", "owner = 'ann'"),
    ("owner = 'O''Neil'", "owner = 'O''Neil'"),
    ("owner <> 'ann'", "owner <> 'ann'"),
    ("owner = ''", "owner = ''"),
    ("'ann' < owner", "'ann' < owner"),
    ("owner IS NULL", "owner is null"),
    ("owner is not null", "owner is not null"),
    ("NOT owner = 'ann'", "not owner = 'ann'"),
    ("tax >= 50 AND tax < 7.5e1", "tax >= 50 and tax < 75"),
    ("50 <= tax OR rate = .25", "50 <= tax or rate = 0.25"),
    ("tax < rate", "tax < rate"),
    ("rate <> -1 OR rate IS NULL", "rate <> -1 or rate is null"),
    ("is_public = TRUE", "is_public = 1"),
    ("is_public <> true", "is_public <> 1"),
    ("bought > DATE('2010-03-05')", "bought > '2010-03-05'"),
    ("NOT (bought <= date('2010-03-05') OR bought IS NULL)", "not (bought <= '2010-03-05' or bought is null)"),
    (
        "\"Grund und Boden\" = 'g1' AND (tax > 10 OR owner = 'Ö 7')",
        "\"Grund und Boden\" = 'g1' and (tax > 10 or owner = 'Ö 7')",
    ),
    ("number = '12-3/4'", "number = '12-3/4'"),
    ("number IS NULL", "number is null"),
    ("area_m2 = 200", "area_m2 = 200"),
    ("area2_mm2 = '200000000'", "area2_mm2 = '200000000'"),
    ("id>=66", "id >= 66"),
    ("TRUE", "1"),
    ("FALSE OR tax = 37", "0 or tax = 37"),
    ("tax > 9007199254740993", "tax > 9007199254740993"),
]


@pytest.mark.parametrize("text, condition", TEXT_AND_SQL)
def test_text(served, table, text, condition):
    """/conf/cql2-text, /conf/basic-cql2: what passes is what SQLite selects."""
    assert sorted(ids(served, filter=text)) == selected(table, condition)


def drawn(draw, depth):
    """A filter as text, as JSON and as SQL."""
    kind = draw.choice(["compared"] * 3 + ["null"] + (["and", "or", "not"] * 2 if depth else []))
    if kind == "null":
        name = draw.choice(["owner", "rate", "bought", "number"])
        return f"{name} IS NULL", {"op": "isNull", "args": [{"property": name}]}, f"{name} is null"
    if kind == "compared":
        name = draw.choice(["owner", "tax", "rate", "number"])
        sign = draw.choice(["=", "<>", "<", "<=", ">", ">="])
        value = (
            draw.choice([0, 7, 37.5, 50, -1, 3])
            if name in ("tax", "rate")
            else draw.choice(["ann", "O'Neil", "", "12-5/4"])
        )
        text = "'" + value.replace("'", "''") + "'" if isinstance(value, str) else repr(value)
        return f"{name} {sign} {text}", {"op": sign, "args": [{"property": name}, value]}, f"{name} {sign} {text}"
    if kind == "not":
        text, told, sql = drawn(draw, depth - 1)
        return f"NOT ({text})", {"op": "not", "args": [told]}, f"not ({sql})"
    parts = [drawn(draw, depth - 1) for _ in range(draw.randint(2, 3))]
    words = f" {kind} "
    told = {"op": kind, "args": [it[1] for it in parts]}
    return words.upper().join(f"({it[0]})" for it in parts), told, words.join(f"({it[2]})" for it in parts)


def test_drawn_filters(served, table):
    """/conf/cql2-text, /conf/cql2-json, /conf/basic-cql2: filters at random, in both languages, and SQLite."""
    draw, sizes = random.Random(3), set()
    for _ in range(60):
        text, told, condition = drawn(draw, 3)
        wanted = selected(table, condition)
        assert sorted(ids(served, filter=text)) == wanted, text
        assert sorted(ids(served, filter=json.dumps(told), filter_lang="cql2-json")) == wanted, told
        sizes.add(len(wanted))
    assert len(sizes) > 10


def test_days_and_moments_as_json(served, table):
    """/conf/cql2-json: a day; `since` of the parcels that were is a moment."""
    told = {"op": ">", "args": [{"property": "bought"}, {"date": "2010-03-05"}]}
    assert sorted(ids(served, filter=json.dumps(told), filter_lang="cql2-json")) == selected(
        table, "bought > '2010-03-05'"
    )
    times = [it["time"] for it in served.ask("/entries").json()["records"]]
    told = {"op": "<=", "args": [{"property": "until"}, {"timestamp": times[0]}]}
    gone = [it["id"] for it in asked(served, "history", filter=json.dumps(told), filter_lang="cql2-json")]
    assert set(gone) >= {1, 2} and set(gone) <= {1, 2, 11, 12}
    assert [it["id"] for it in asked(served, "history", filter=f"since > TIMESTAMP('{times[1]}')")] == []


@pytest.mark.parametrize("crs", ["http://www.opengis.net/def/crs/OGC/1.3/CRS84", OWN])
def test_boxes_and_points(served, table, crs):
    """/conf/basic-spatial-functions; /req/filter/filter-crs-wgs84, filter-crs-param: as GEOS says."""
    known = {it["id"]: shape(it["geometry"]) for it in asked(served, crs=crs)}
    west, south, east, north = gpd.GeoSeries(list(known.values())).total_bounds
    for part in ((0.1, 0.1, 0.4, 0.3), (0.55, 0.55, 0.56, 0.56), (0, 0, 1, 1), (2, 2, 3, 3)):
        low = west + (east - west) * part[0], south + (north - south) * part[1]
        high = west + (east - west) * part[2], south + (north - south) * part[3]
        wanted = [it for it, ring in known.items() if ring.intersects(box(*low, *high))]
        text = f"S_INTERSECTS(geometry, BBOX({low[0]!r}, {low[1]!r}, {high[0]!r}, {high[1]!r}))"
        told = {"op": "s_intersects", "args": [{"property": "geometry"}, {"bbox": [*low, *high]}]}
        more = {"filter_crs": crs} if crs == OWN else {}
        assert sorted(ids(served, filter=text, **more)) == sorted(wanted)
        assert sorted(ids(served, filter=json.dumps(told), filter_lang="cql2-json", **more)) == sorted(wanted)
        point = {"type": "Point", "coordinates": list(low)}
        told = {"op": "s_intersects", "args": [{"property": "geometry"}, point]}
        wanted = [it for it, ring in known.items() if ring.intersects(Point(low))]
        if part[0] in (0.1, 0.55):
            assert ids(served, filter=f"S_INTERSECTS(geometry, POINT({low[0]!r} {low[1]!r}))", **more) == wanted
            assert ids(served, filter=json.dumps(told), filter_lang="cql2-json", **more) == wanted and len(wanted) == 1


def test_mixing_expressions(served, table):
    """/req/filter/mixing-expressions: a filter and other parameters both have to hold."""
    area = f"{X},{Y},{X + 35},{Y + 35}"
    found = ids(served, filter="tax > 30", bbox=area, bbox_crs=OWN)
    wanted = set(selected(table, "tax > 30")) & {
        it for it, ring in table[1].items() if ring.intersects(box(X, Y, X + 35, Y + 35))
    }
    assert set(found) == wanted and wanted
    assert ids(served, filter="tax > 30", number="12-3/4") == [it for it in selected(table, "tax > 30") if it == 3]


@pytest.mark.parametrize(
    "text",
    [
        "",
        "tax",
        "tax =",
        "= 1",
        "tax == 1",
        "tax = 'x'",
        "owner = 1",
        "owner = ann",
        "nothing = 1",
        "tax = 1 AND",
        "(tax = 1",
    ]
    + ["tax = 1)", "tax = 1 tax = 2", "bought = '2001-01-01'", "bought = DATE('2001-02-30')", "1 = 1", "NULL IS NULL"]
    + [
        "is_public > FALSE",
        "owner LIKE 'a%'",
        "S_INTERSECTS(owner, BBOX(1,2,3,4))",
        "S_INTERSECTS(geometry, BBOX(1,2))",
    ]
    + ["S_INTERSECTS(geometry, POINT(1 2 3))", "tax = 1e999", "'ann", 'owner = "ann"', "(" * 60 + "tax=1" + ")" * 60]
    + [
        "NOT " * 60 + "tax = 1",
        "tax = 1 OR " * 2000 + "tax = 1",
        "tax = 1; drop table parcels",
        "tax = TIMESTAMP('x')",
    ],
)
def test_text_that_is_none(served, text):
    """/req/filter/filter-param: what is not understood is 400, and says what."""
    answer = served.ask("/collections/parcels/items", params={"filter": text})
    assert answer.status_code == 400 and answer.json()["code"] == "filter", pretty(answer)
    assert answer.json()["description"].startswith("the filter ")


@pytest.mark.parametrize(
    "told",
    [
        "",
        "x",
        "[]",
        "1",
        '"tax"',
        "{}",
        '{"op":"and"}',
        '{"op":"and","args":[]}',
        '{"op":"=","args":[1,2]}',
        '{"op":"or","args":[1]}',
    ]
    + [
        '{"op":"=","args":[{"property":"tax"},NaN]}',
        '{"op":"=","args":[{"property":1},2]}',
        '{"op":"like","args":[1,2]}',
    ]
    + ['{"op":"=","args":[{"property":"tax"},{"date":1}]}', '{"op":["="],"args":[]}', '{"op":"not","args":[true,true]}']
    + [
        '{"op":"s_intersects","args":[{"property":"geometry"},{"bbox":[1,2,3,"4"]}]}',
        "[" * 5000,
        '{"op":"not","args":[' * 60,
    ]
    + ['{"op":"s_intersects","args":[{"property":"geometry"},{"bbox":[1,2,3,' + "9" * 400 + "]}]}"],
)
def test_json_that_is_none(served, told):
    """/req/filter/filter-lang-param: the same of JSON."""
    answer = served.ask("/collections/parcels/items", params={"filter": told, "filter-lang": "cql2-json"})
    assert answer.status_code == 400 and answer.json()["code"] == "filter", pretty(answer)


def test_order(served, table):
    """`sortby`: as SQLite orders, those without a value last; pages keep the order."""
    for text, order in (
        ("tax", "tax nulls last, id"),
        ("-tax", "tax desc nulls last, id"),
        ("+owner,-rate", "owner nulls last, rate desc nulls last, id"),
        ("-bought,tax", "bought desc nulls last, tax nulls last, id"),
        ("is_public,number", "is_public nulls last, number nulls last, id"),
    ):
        wanted = [it for it, in table[0].execute(f"select id from parcels order by {order}")]
        assert ids(served, sortby=text, limit=7) == wanted, text
    for text in ("nothing", "tax,,", "--tax", "geometry"):
        assert served.ask("/collections/parcels/items", params={"sortby": text}).status_code == 400


def test_chosen_properties(served):
    """`properties`: those alone, in the collection's order; the shape and the id stay."""
    for it in asked(served, properties="tax,number"):
        assert list(it["properties"]) == ["number", "tax"] and it["geometry"]["type"] == "Polygon" and it["id"]
    assert served.ask("/collections/parcels/items?properties=tax,nothing").status_code == 400


def test_filters_of_a_version(served):
    """A filter is of the version that is asked for, and `next` keeps both."""
    assert ids(served, filter="id < 3", entries="0") == [1, 2] and ids(served, filter="id < 3") == []
    assert len(ids(served, filter="id > 0", entries="0", limit=5)) == 64
