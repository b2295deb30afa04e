"""The map page in a headless browser: what it lists, tells and draws; odd texts, other units, a large layer."""
from __future__ import annotations

import html.parser
import json
import random
import re
import sqlite3
from contextlib import closing
from pathlib import Path
from typing import Any, Callable, Dict, Iterator, List, Optional, Tuple

import geopandas as gpd
import numpy as np
import pytest
from gandovel.cli import main
from gandovel.errors import Refused
from gandovel.out.gpkg import write_layers
from gandovel.out.map import _numbers, drawing_parts, page_of, write_map
from gandovel.shapes import polygons_of
from hypothesis import given, settings
from hypothesis import strategies as st
from numpy.typing import NDArray
from selenium import webdriver
from selenium.webdriver.common.action_chains import ActionChains
from selenium.webdriver.common.by import By
from selenium.webdriver.common.keys import Keys
from selenium.webdriver.remote.webdriver import WebDriver
from selenium.webdriver.remote.webelement import WebElement
from selenium.webdriver.support.wait import WebDriverWait
from shapely.geometry import Point, Polygon, box

CRS = "EPSG:25832"
EAST, NORTH = 600_000.0, 5_500_000.0
DOES = "Show in the list Link to it Print"
"""What one can do with a parcel."""
SECONDS_TO_OPEN, SECONDS_A_FRAME = 3.0, 0.1
Row = Dict[str, Any]
Places = NDArray[np.float64]


@pytest.fixture(scope="module")
def chromium() -> Iterator[WebDriver]:
    """Chromium without a window."""
    options = webdriver.ChromeOptions()
    options.binary_location = "/usr/bin/chromium"
    for word in ("headless=new", "no-sandbox", "disable-dev-shm-usage", "disable-gpu", "window-size=1000,700"):
        options.add_argument(f"--{word}")
    options.set_capability("goog:loggingPrefs", {"browser": "ALL"})
    driver = webdriver.Chrome(service=webdriver.chrome.service.Service("/usr/bin/chromedriver"), options=options)
    yield driver
    driver.quit()


@pytest.fixture
def browser(chromium: WebDriver) -> WebDriver:
    """Chromium with a window of 1000 by 700 pixels, in light colours."""
    screen(chromium)
    return chromium


def screen(browser: WebDriver, wide: int = 1000, high: int = 700, dark: bool = False) -> None:
    """Gives the page a screen of this size (pixels) and these colours."""
    metrics = {"width": wide, "height": high, "deviceScaleFactor": 1, "mobile": False}
    colours = {"features": [{"name": "prefers-color-scheme", "value": "dark" if dark else "light"}]}
    browser.execute_cdp_cmd("Emulation.setDeviceMetricsOverride", metrics)  # type: ignore[attr-defined]
    browser.execute_cdp_cmd("Emulation.setEmulatedMedia", colours)  # type: ignore[attr-defined]


def frame(rows: List[Row], crs: Any = CRS) -> gpd.GeoDataFrame:
    return gpd.GeoDataFrame(rows, geometry="geometry", crs=crs)


def fault(area2: str, numbers: str, geometry: Polygon, layer: str = "parcels") -> Row:
    """A row of a layer of faults, as `gandovel report` writes them."""
    return {
        "layer": layer,
        "area2_mm2": area2,
        "area_m2": geometry.area,
        "numbers": numbers,
        "numbers_how": "exact",
        "geometry": geometry,
    }


def parcels_of(side: int, first: str = "101") -> List[Row]:
    """A square of `side` times `side` parcels, 10 m wide, numbered from 101 but for the first."""
    lower = [(EAST + 10 * (at % side), NORTH + 10 * (at // side)) for at in range(side * side)]
    numbers = [first, *(str(101 + at) for at in range(1, side * side))]
    return [{"number": it, "status": "ok", "geometry": box(x, y, x + 10, y + 10)} for it, (x, y) in zip(numbers, lower)]


def report(path: Path, first: str = "101", zones: bool = True, faults: bool = True, side: int = 3) -> Path:
    """A report on nine parcels at a place as registers have them: 102 is split, beside 103 is a gap 2 mm wide."""
    rows = parcels_of(side, first)
    layers = [("parcels", frame(rows))]
    if zones:
        halves = [
            {"number": "W", "geometry": box(EAST, NORTH, EAST + 15, NORTH + 10 * side)},
            {"number": "E", "geometry": box(EAST + 15, NORTH, EAST + 10 * side, NORTH + 10 * side)},
        ]
        split = {"number": "102", "zones": "W,E", "zone_count": 2, "sliver": 0, "geometry": rows[1]["geometry"]}
        layers += [("zones", frame(halves)), ("split", frame([split]))]
    if faults:
        gap = Polygon([(EAST + 30, NORTH), (EAST + 30.002, NORTH), (EAST + 30.002, NORTH + 10)])
        zone_gap = box(EAST + 2, NORTH + 22, EAST + 3, NORTH + 23)
        overlap = box(EAST + 9, NORTH + 12, EAST + 11, NORTH + 14)
        gaps = [fault("20000", "103", gap), fault("2000000", "W", zone_gap, "zones")]
        overlaps = [{**fault("8000000", "104,105", overlap), "numbers_how": "measured"}]
        layers += [("gaps", frame(gaps)), ("overlaps", frame(overlaps))]
    write_layers(path, layers, {})
    return path


def opened(browser: WebDriver, source: Path) -> WebDriver:
    """The page of a report, once it is drawn. No error may stand on the console, and nothing may be loaded."""
    page = source.with_suffix(".html")
    write_map(source, page)
    browser.get(page.as_uri())
    WebDriverWait(browser, 60).until(lambda it: it.execute_script("return document.body.dataset.drawn"))
    assert [entry for entry in browser.get_log("browser") if entry["level"] == "SEVERE"] == []  # type: ignore
    assert browser.execute_script("return performance.getEntriesByType('resource').length") == 0
    return browser


def settle(browser: WebDriver) -> None:
    """Waits until what is planned is drawn."""
    browser.execute_async_script("const done = arguments[0]; requestAnimationFrame(() => requestAnimationFrame(done));")


def view(browser: WebDriver) -> Dict[str, Any]:
    settle(browser)
    seen: Dict[str, Any] = browser.execute_script("return gandovelView()")
    return seen


def one(browser: WebDriver, name: str) -> WebElement:
    return browser.find_element(By.CSS_SELECTOR, name)


def buttons(browser: WebDriver) -> List[WebElement]:
    return browser.find_elements(By.CSS_SELECTOR, "#list button")


def click_at(browser: WebDriver, x: float, y: float) -> None:
    """A click on the map at a place in metres."""
    seen, size = view(browser), one(browser, "#map").size
    right, down = (x - seen["left"]) * seen["scale"], (seen["top"] - y) * seen["scale"]
    middle = round(right - size["width"] / 2), round(down - size["height"] / 2)
    ActionChains(browser).move_to_element_with_offset(one(browser, "#map"), *middle).click().perform()


def choose(browser: WebDriver, group: str) -> None:
    """Shows a group of the list."""
    one(browser, f"#which option[value={group}]").click()


def pixels(browser: WebDriver) -> NDArray[np.uint8]:
    """The map's pixels (high, wide, 3), as they are drawn."""
    settle(browser)
    size = browser.execute_script("const it = gandovelMap.canvas; return [it.height, it.width]")
    text = browser.execute_script(
        "let text = ''; for (const it of gandovelMap.raster.pixels)"
        " text += String.fromCharCode(it & 255, it >> 8 & 255, it >> 16 & 255); return text"
    )
    return np.frombuffer(text.encode("latin-1"), dtype=np.uint8).reshape(*size, 3)


def colour(browser: WebDriver, name: str) -> List[int]:
    """A colour of the page's style."""
    style = "return getComputedStyle(document.documentElement).getPropertyValue('--' + arguments[0])"
    text = browser.execute_script(style, name).strip()
    return [int(text[at : at + 2], 16) for at in (1, 3, 5)]


# ---- the list, the search, the keyboard


def test_lists_faults_by_area_and_zooms_there(browser: WebDriver, tmp_path: Path) -> None:
    opened(browser, report(tmp_path / "town.gpkg"))
    titles = ["Overlap, 4 m²", "Zone gap, 1 m²", "Gap, 0.01 m²"]
    assert [it.text.split("\n")[0] for it in buttons(browser)] == titles
    assert [it.text.split("\n", 1)[1] for it in buttons(browser)] == [
        "at parcels 104, 105 (measured); twice its area: 8000000 mm² (exact)",
        "at zone W; twice its area: 2000000 mm² (exact)",
        "at parcel 103; twice its area: 20000 mm² (exact)",
    ]
    legend = one(browser, "#legend").text
    assert "measured: areas of parcels, and which of them overlap" in legend and "exact: gaps and overlaps" in legend
    before = view(browser)
    gap = buttons(browser)[2]
    gap.click()
    after = view(browser)
    assert after["scale"] > before["scale"] and after["picked"] == "gaps"
    assert not one(browser, "#details").is_displayed()
    assert gap.get_attribute("aria-current") == "true"
    summary = one(browser, "#summary").text
    assert summary == "9 parcels; gaps: 1, overlaps: 1, zone gaps: 1, split parcels: 1"
    choose(browser, "split")
    assert [it.text for it in buttons(browser)] == ["Parcel 102\n100 m² (measured); split between zones W,E"]


def test_searches_by_number(browser: WebDriver, tmp_path: Path) -> None:
    opened(browser, report(tmp_path / "town.gpkg"))
    one(browser, "body").send_keys("/")
    field = one(browser, "#number")
    assert browser.switch_to.active_element == field
    for text, said, picked in (
        ("109", "parcel 109", "109"),
        ("10", "parcel 101, the first of 9", "101"),
        ("0000", "no such parcel", "101"),
    ):
        field.clear()
        field.send_keys(text, Keys.ENTER)
        assert one(browser, "#found").text == said and view(browser)["picked"] == picked
    field.send_keys(Keys.ESCAPE)
    assert view(browser)["picked"] is None and not one(browser, "#details").is_displayed()


def test_hovers_and_moves_by_keys(browser: WebDriver, tmp_path: Path) -> None:
    opened(browser, report(tmp_path / "town.gpkg", faults=False))
    field = one(browser, "#map")
    ActionChains(browser).move_to_element(field).perform()
    tip = one(browser, "#tip")
    assert tip.is_displayed() and tip.text.startswith("Parcel 105")
    before = view(browser)
    field.send_keys(Keys.ARROW_RIGHT, "+")
    after = view(browser)
    assert after["scale"] == pytest.approx(2 * before["scale"]) and after["left"] > before["left"]
    field.send_keys("0")
    assert view(browser)["scale"] == pytest.approx(before["scale"])
    field.send_keys(Keys.ENTER)
    assert one(browser, "#details b").text == "Parcel 105" and view(browser)["picked"] == "105"


def test_drags_and_turns_the_wheel(browser: WebDriver, tmp_path: Path) -> None:
    opened(browser, report(tmp_path / "town.gpkg"))
    before = view(browser)
    field = one(browser, "#map")
    ActionChains(browser).click_and_hold(field).move_by_offset(60, 30).move_by_offset(40, 20).release().perform()
    browser.execute_script("gandovelMap.map.stop()")
    moved = view(browser)
    assert moved["left"] < before["left"] and moved["top"] > before["top"]
    assert moved["scale"] == pytest.approx(before["scale"]) and moved["picked"] is None
    origin = webdriver.common.actions.wheel_input.ScrollOrigin.from_element(field)
    ActionChains(browser).scroll_from_origin(origin, 0, -200).perform()
    assert view(browser)["scale"] > moved["scale"]


# ---- what lies at a click


def test_tells_what_lies_at_a_click(browser: WebDriver, tmp_path: Path) -> None:
    opened(browser, report(tmp_path / "town.gpkg"))
    click_at(browser, EAST + 5, NORTH + 15)
    details = one(browser, "#details")
    lines = ["Parcel 104", "100 m² (measured)", "at overlap, 4 m²", "zone W (measured)", DOES]
    assert details.text.split("\n")[1:] == lines
    one(browser, "#details a").click()
    assert browser.switch_to.active_element == buttons(browser)[3]
    assert buttons(browser)[3].get_attribute("aria-current") == "true"
    assert buttons(browser)[3].text.startswith("Parcel 104")
    click_at(browser, EAST + 10.5, NORTH + 13)
    texts = [it.text for it in browser.find_elements(By.CSS_SELECTOR, "#details b")]
    assert texts == ["Overlap, 4 m²", "Parcel 105"] and view(browser)["picked"] == "overlaps"
    one(browser, "#details .close").click()
    assert not details.is_displayed() and view(browser)["picked"] is None


def zoned(path: Path, first: str) -> Path:
    """A report on nine parcels in two zones, which overlap by 10 cm, have a gap at 109, and reach 5 m beyond 103."""
    zones = [
        {"number": first, "geometry": box(EAST, NORTH, EAST + 15, NORTH + 30)},
        {"number": "E", "geometry": box(EAST + 14.9, NORTH, EAST + 35, NORTH + 20)},
    ]
    gap, overlap = box(EAST + 15, NORTH + 20, EAST + 30, NORTH + 30), box(EAST + 14.9, NORTH, EAST + 15, NORTH + 20)
    gaps, overlaps = [fault("300000000", "E", gap, "zones")], [fault("4000000", f"{first},E", overlap, "zones")]
    layers = [("parcels", parcels_of(3)), ("zones", zones), ("gaps", gaps), ("overlaps", overlaps)]
    write_layers(path, [(name, frame(rows)) for name, rows in layers], {})
    return path


def test_names_zones_and_their_faults(browser: WebDriver, tmp_path: Path) -> None:
    first = "<!--<script>"
    opened(browser, zoned(tmp_path / "zones.gpkg", first))
    assert [it.text for it in buttons(browser)] == [
        "Zone gap, 150 m²\nat zone E; twice its area: 300000000 mm² (exact)",
        f"Zone overlap, 2 m²\nat zones {first}, E; twice its area: 4000000 mm² (exact)",
    ]
    assert "zone gaps: 1, zone overlaps: 1" in one(browser, "#summary").text
    assert "zone's border" in one(browser, "#legend").text
    for x, y, said in (
        (5, 5, ["Parcel 101", "100 m² (measured)", f"zone {first} (measured)", DOES]),
        (25, 5, ["Parcel 103", "100 m² (measured)", "zone E (measured)", DOES]),
        (33, 5, ["Zone E", "402 m² (measured)"]),
    ):
        click_at(browser, EAST + x, NORTH + y)
        assert one(browser, "#details").text.split("\n")[1:] == said
    click_at(browser, EAST + 25, NORTH + 25)
    lines = one(browser, "#details").text.split("\n")[1:]
    assert lines[0] == "Zone gap, 150 m²" and lines[-4:-1] == [
        "Parcel 109",
        "100 m² (measured)",
        "in no zone (measured)",
    ]


def test_draws_the_borders_of_zones_over_parcels(browser: WebDriver, tmp_path: Path) -> None:
    opened(browser, report(tmp_path / "town.gpkg", faults=False))
    with_borders = pixels(browser)
    browser.execute_script("gandovelMap.setShown('zones', false)")
    changed = (pixels(browser) != with_borders).any(axis=2)
    seen = view(browser)
    border = round((EAST + 15 - seen["left"]) * seen["scale"])
    inside = round((EAST + 8 - seen["left"]) * seen["scale"])
    assert changed[:, border - 2 : border + 3].any(axis=1).mean() > 0.8
    assert not changed[100:-100, inside - 9 : inside + 10].any()


def test_tells_of_a_thin_fault_at_a_click_near_it(browser: WebDriver, tmp_path: Path) -> None:
    opened(browser, report(tmp_path / "town.gpkg"))
    click_at(browser, EAST + 29.9, NORTH + 4)
    assert one(browser, "#details b").text == "Gap, 0.01 m²" and view(browser)["picked"] == "gaps"


def test_shows_an_item_of_a_later_page_of_the_list(browser: WebDriver, tmp_path: Path) -> None:
    opened(browser, report(tmp_path / "town.gpkg", zones=False, faults=False, side=16))
    one(browser, "#number").send_keys("350", Keys.ENTER)
    one(browser, "#details a").click()
    assert one(browser, "#list [aria-current]").text.startswith("Parcel 350")
    assert one(browser, "#shown").text == "201 to 256 of 256"
    one(browser, "#pages [data-step='-1']").click()
    assert one(browser, "#shown").text == "101 to 200 of 256" and len(buttons(browser)) == 100


def test_is_tapped(browser: WebDriver, tmp_path: Path) -> None:
    screen(browser, 390, 800)
    browser.execute_cdp_cmd("Emulation.setTouchEmulationEnabled", {"enabled": True})  # type: ignore[attr-defined]
    try:
        opened(browser, report(tmp_path / "town.gpkg"))
        rect = browser.execute_script("return document.getElementById('map').getBoundingClientRect().toJSON()")
        place = {"x": rect["x"] + rect["width"] / 2, "y": rect["y"] + rect["height"] / 2}
        for kind, points in (("touchStart", [place]), ("touchEnd", [])):
            touch = {"type": kind, "touchPoints": points}
            browser.execute_cdp_cmd("Input.dispatchTouchEvent", touch)  # type: ignore[attr-defined]
        WebDriverWait(browser, 10).until(lambda it: one(it, "#details").is_displayed())
        assert one(browser, "#details b").text == "Parcel 105" and not one(browser, "#tip").is_displayed()
        wide = browser.execute_script("return [document.documentElement.scrollWidth, innerWidth]")
        assert wide[0] <= wide[1]
    finally:
        browser.execute_cdp_cmd("Emulation.setTouchEmulationEnabled", {"enabled": False})  # type: ignore[attr-defined]


# ---- texts of the data


@pytest.mark.parametrize(
    "number",
    [
        "<b>1</b></script><script>document.title='no'</script>",
        "<!--<script>",
        "\"'`&lt;&amp;${1}@DATA@",
        "101,102",
        "\u202e1\u2028\u00a02\ufffe",
    ],
)
def test_shows_text_of_data_as_text(browser: WebDriver, tmp_path: Path, number: str) -> None:
    opened(browser, report(tmp_path / "a<i>b.gpkg", first=number, zones=False, faults=False))
    assert browser.title == "a<i>b"
    one(browser, "#number").send_keys(number[:3], Keys.ENTER)
    found = browser.execute_script("return document.getElementById('found').textContent")
    assert found.startswith(f"parcel {number}")
    assert browser.execute_script("return document.querySelector('#details b').textContent") == f"Parcel {number}"
    assert browser.execute_script("return document.querySelectorAll('#list b b, #details b b, script').length") == 6
    choose(browser, "faults")
    assert one(browser, "#more").text.startswith("Nothing to show")


class _Data(html.parser.HTMLParser):
    """The text of the page's element `data`."""

    def __init__(self, page: str) -> None:
        super().__init__(convert_charrefs=False)
        self.text, self.inside = "", False
        self.feed(page)

    def handle_starttag(self, tag: str, attrs: List[Tuple[str, Optional[str]]]) -> None:
        self.inside = ("id", "data") in attrs

    def handle_endtag(self, tag: str) -> None:
        self.inside = False

    def handle_data(self, data: str) -> None:
        self.text += data if self.inside else ""


@settings(deadline=None, max_examples=20)
@given(st.text(st.characters(blacklist_categories=["Cs"], blacklist_characters="\x00"), min_size=1))
def test_hands_any_number_over(tmp_path_factory: pytest.TempPathFactory, number: str) -> None:
    source = tmp_path_factory.mktemp("numbers") / "report.gpkg"
    page = page_of(report(source, first=number, zones=False, faults=False))
    data = _Data(page).text
    assert "<" not in data and json.loads(data)["layers"]["parcels"]["columns"]["number"][0] == number


@settings(deadline=None)
@given(st.lists(st.text("ab,", min_size=1, max_size=3).filter(lambda it: it[0] != "," != it[-1]), max_size=6))
def test_takes_numbers_with_commas_apart(numbers: List[str]) -> None:
    with_commas = {it for it in numbers if "," in it}
    if any(",".join(pair) in with_commas for pair in zip(numbers, numbers[1:])):
        return
    joined = ",".join(numbers)
    assert ",".join(_numbers(joined, with_commas)) == joined
    if not with_commas:
        assert _numbers(joined, with_commas) == numbers


# ---- what is drawn


def test_circles_a_thin_fault_and_never_hides_it(browser: WebDriver, tmp_path: Path) -> None:
    opened(browser, report(tmp_path / "town.gpkg", zones=False, side=9))
    gap = colour(browser, "gap")
    for factor in (1, 4, 16, 256):
        browser.execute_script(
            "gandovelMap.showAll(); gandovelMap.zoom(arguments[2]);"
            "gandovelMap.map.panTo([arguments[1], arguments[0]], {animate: false})",
            EAST + 30.00125,
            NORTH + 2.5,
            factor,
        )
        drawn = (pixels(browser) == gap).all(axis=2)
        high, wide = drawn.shape
        line = drawn[high // 2 - 12 : high // 2 + 13, wide // 2 - 2 : wide // 2 + 3].any(axis=1)
        assert line.all() if factor > 1 else line[9:16].all()
        assert drawn[:, wide // 2 - 12 : wide // 2 - 6].sum() > 10


def test_hatches_split_parcels_below_faults(browser: WebDriver, tmp_path: Path) -> None:
    opened(browser, report(tmp_path / "town.gpkg"))
    drawn = pixels(browser)
    hatch, plain = ((drawn == colour(browser, name)).all(axis=2).mean() for name in ("hatch", "ok"))
    assert 0 < hatch < plain / 10


def test_measures_areas_with_holes_and_parts(tmp_path: Path) -> None:
    hole = [(2, 2), (4, 2), (4, 4), (2, 4)]
    shapes = [Polygon(box(0, 0, 10, 10).exterior, [turn]) for turn in (hole, hole[::-1])]
    shapes.append(shapes[0].union(box(20, 0, 30, 10)))
    rows = [{"number": str(at), "status": "ok", "geometry": shape} for at, shape in enumerate(shapes)]
    write_layers(tmp_path / "holes.gpkg", [("parcels", frame(rows))], {})
    parcels = json.loads(_Data(page_of(tmp_path / "holes.gpkg")).text)["layers"]["parcels"]
    assert parcels["columns"]["square_metres"] == pytest.approx([96, 96, 196])


def test_leaves_no_seam_between_parcels(browser: WebDriver, tmp_path: Path) -> None:
    large_report(tmp_path / "part.gpkg", side=12, faults=0)
    opened(browser, tmp_path / "part.gpkg")
    page = colour(browser, "page")
    for factor in (1.9, 1.37, 1.91, 2.3):
        browser.execute_script("gandovelMap.zoom(arguments[0])", factor)
        assert not (pixels(browser) == page).all(axis=2).any()


def test_follows_dark_colours(browser: WebDriver, tmp_path: Path) -> None:
    screen(browser, dark=True)
    opened(browser, report(tmp_path / "town.gpkg"))
    assert pixels(browser)[0, 0].tolist() == colour(browser, "page") == [0x17, 0x18, 0x1A]
    screen(browser)
    assert pixels(browser)[0, 0].tolist() == colour(browser, "page") == [0xFF, 0xFF, 0xFF]


def test_fits_a_small_screen(browser: WebDriver, tmp_path: Path) -> None:
    screen(browser, 390, 800)
    opened(browser, report(tmp_path / "town.gpkg"))
    wide = browser.execute_script("return [document.documentElement.scrollWidth, innerWidth]")
    assert wide[0] <= wide[1]
    field, legend, findings = (
        browser.execute_script(f"return document.querySelector('{name}').getBoundingClientRect().toJSON()")
        for name in ("#map", "#legend", "nav")
    )
    assert field["bottom"] <= legend["top"] and legend["bottom"] <= findings["top"]
    assert field["height"] > 200


def test_says_whose_parts_are_proved(browser: WebDriver, tmp_path: Path) -> None:
    rows, zones, told = parcels_of(3), [("W", 49.5), ("E", 50.5)], [("102", "proved"), ("105", "measured")]
    shapes = {row["number"]: row["geometry"] for row in rows}
    parts = [
        {"number": number, "zone": zone, "area_m2": area, "area_how": how, "geometry": shapes[number]}
        for number, how in told
        for zone, area in zones
    ]
    split = [{"number": number, "zones": "W,E", "geometry": shapes[number]} for number, _ in told]
    layers = [("parcels", frame(rows)), ("split", frame(split)), ("split_parts", frame(parts))]
    write_layers(tmp_path / "parts.gpkg", layers, {})
    opened(browser, tmp_path / "parts.gpkg")
    assert "proved: areas of the parts of split parcels" in one(browser, "#legend").text
    choose(browser, "split")
    assert [it.text for it in buttons(browser)] == [
        f"Parcel {number}\n100 m² (measured); split: zone W 49.5 m², zone E 50.5 m² ({how})" for number, how in told
    ]


def test_shows_what_else_a_report_has(browser: WebDriver, tmp_path: Path) -> None:
    rows = parcels_of(3)
    layers = [
        ("parcels", frame(rows)),
        ("open_gaps", frame([fault("3000000/7", "101,104", box(EAST, NORTH + 9, EAST + 1, NORTH + 10))])),
        ("slivers", frame([fault("600000", "105", box(EAST + 15, NORTH + 15, EAST + 15.3, NORTH + 16))])),
        ("touched", frame([{"distance_mm": 0.25, "geometry": Point(EAST + 20, NORTH + 10)}])),
        ("skipped", frame([{"number": "777", "reason": "crosses itself", "geometry": Point(EAST + 25, NORTH + 25)}])),
        ("split_parts", frame([{"number": "101", "zone": "W", "area_m2": 1.0, "geometry": rows[0]["geometry"]}])),
    ]
    write_layers(tmp_path / "all.gpkg", layers, {})
    opened(browser, tmp_path / "all.gpkg")
    assert [it.text.split("\n")[0] for it in buttons(browser)] == ["Sliver, 0.3 m²", "Open gap, 0.21 m²"]
    assert "open gap\n" in one(browser, "#legend").text and "corner made to touch" in one(browser, "#legend").text
    click_at(browser, EAST + 20, NORTH + 10)
    assert one(browser, "#details").text.split("\n")[1:3] == ["Corner made to touch", "by 0.25 mm (measured)"]
    choose(browser, "skipped")
    assert [it.text for it in buttons(browser)] == ["Skipped parcel 777\ncrosses itself"]
    buttons(browser)[0].click()
    assert view(browser)["picked"] == "777"
    assert one(browser, "#summary").text.endswith("split parcels: 0, skipped parcels: 1")


def test_tells_areas_in_the_layers_unit_too(browser: WebDriver, tmp_path: Path) -> None:
    rows = [{"number": "1", "status": "ok", "geometry": box(980_000, 190_000, 980_100, 190_100)}]
    write_layers(tmp_path / "feet.gpkg", [("parcels", frame(rows, crs="EPSG:2263"))], {})
    opened(browser, tmp_path / "feet.gpkg")
    choose(browser, "parcels")
    assert "929.03 m² = 10,000 US survey foot² (measured)" in buttons(browser)[0].text
    bars = [it.text for it in browser.find_elements(By.CSS_SELECTOR, "#scale span")]
    assert len(bars) == 2 and bars[0].endswith(" m") and bars[1].endswith(" US survey foot")
    wide = [it.size["width"] for it in browser.find_elements(By.CSS_SELECTOR, "#scale span")]
    metres = [float(bars[0].split()[0]), float(bars[1].split()[0]) * 0.3048006]
    assert wide[0] / metres[0] == pytest.approx(wide[1] / metres[1], rel=0.03)
    sides = "return Array.from(document.querySelectorAll('#scale span'), (it) => getComputedStyle(it).borderRightWidth)"
    assert browser.execute_script(sides) == ["0px", "0px"]  # no end crosses a text that is longer than its bar


# ---- a large layer


def large_report(path: Path, side: int = 200, faults: int = 2000) -> None:
    """A report on parcels of twelve corners each, side by side, with a twentieth as many zones, and thin faults."""
    pick = np.random.default_rng(5)
    at = np.arange(side + 1) * 40.0
    nodes = np.stack(np.meshgrid(at, at, indexing="ij"), axis=-1) + pick.uniform(-6, 6, (side + 1, side + 1, 2))
    nodes += (EAST, NORTH)

    def between(start: Places, end: Places) -> List[Places]:
        return [start + (end - start) * part + pick.uniform(-2, 2, start.shape) for part in (1 / 3, 2 / 3)]

    across, up = between(nodes[:-1], nodes[1:]), between(nodes[:, :-1], nodes[:, 1:])
    low, high = np.s_[:, :-1], np.s_[:, 1:]
    ring = [nodes[:-1, :-1], *(it[low] for it in across), nodes[1:, :-1], *(it[1:] for it in up), nodes[1:, 1:]]
    ring += [*(it[high] for it in reversed(across)), nodes[:-1, 1:], *(it[:-1] for it in reversed(up))]
    rings = np.stack([np.broadcast_to(it, (side, side, 2)) for it in ring], axis=2).reshape(-1, 12, 2)
    shapes, every = polygons_of(rings), 20
    numbers = [f"p{row}" for row in range(len(shapes))]
    parcels = {"number": numbers, "status": "ok", "geometry": shapes}
    zones = [{"number": f"z{row}", "geometry": shapes[row].buffer(60, 4)} for row in range(0, len(shapes), every)]
    split = [{"number": f"p{row}", "zones": "a,b", "geometry": shapes[row]} for row in range(0, len(shapes), every)]
    layers = [("parcels", frame(parcels)), ("zones", frame(zones)), ("split", frame(split))]  # type: ignore[arg-type]
    random.seed(7)
    for name in ("gaps", "overlaps")[: 2 * min(faults, 1)]:
        chosen = [rings[random.randrange(len(rings))][:2] for _ in range(faults // 2)]
        thin = [Polygon([a, b, b + (0, random.choice((0.002, 0.05, 1)))]) for a, b in chosen]
        layers.append((name, frame([fault(str(round(it.area * 2e6)), "p1,p2", it) for it in thin])))
    write_layers(path, layers, {})


def processor_seconds(browser: WebDriver) -> float:
    """What the page's thread has taken of a processor so far."""
    metrics = browser.execute_cdp_cmd("Performance.getMetrics", {})["metrics"]  # type: ignore[attr-defined]
    return float(next(it["value"] for it in metrics if it["name"] == "ThreadTime"))


def test_opens_and_zooms_a_large_layer(browser: WebDriver, tmp_path: Path) -> None:
    """The times are those of a processor, not of the clock, so that other work on the machine does not count."""
    large_report(tmp_path / "large.gpkg")
    browser.get("about:blank")
    browser.execute_cdp_cmd("Performance.enable", {"timeDomain": "threadTicks"})  # type: ignore[attr-defined]
    begun = processor_seconds(browser)
    opened(browser, tmp_path / "large.gpkg")
    assert one(browser, "#summary").text.startswith("40000 parcels; gaps: 1000, overlaps: 1000")
    took = processor_seconds(browser) - begun
    frames = 40
    begun = processor_seconds(browser)
    browser.execute_async_script(
        "const [frames, done] = arguments; let at = 0; const step = () => { if (at++ === frames) return done();"
        "gandovelMap.zoom(at <= frames / 2 ? 1.15 : 1 / 1.15); requestAnimationFrame(step); }; step();",
        frames,
    )
    each = (processor_seconds(browser) - begun) / frames
    print(f"40,000 parcels with 2,000 faults: {took:.2f} s to open, {1000 * each:.0f} ms a frame of a zoom")
    assert took < SECONDS_TO_OPEN and each < SECONDS_A_FRAME


# ---- the drawing by itself


LIVE = """<!DOCTYPE html><style>@LEAFLET_STYLE@</style>
<style>:root { --page: #ffffff; --mark: #000000; --ok: #00ff00; } #map { width: 400px; height: 300px; }</style>
<div id="map"></div><script>@LEAFLET@</script><script>@RASTER@</script><script>@DRAWING@</script>"""


def test_draws_parcels_that_change(browser: WebDriver, tmp_path: Path) -> None:
    page = tmp_path / "live.html"
    page.write_text(re.sub("@(.*?)@", lambda it: drawing_parts()[it[1]], LIVE), encoding="utf-8")
    browser.get(page.as_uri())
    squares = frame([{"id": str(at), "geometry": box(10 * at, 0, 10 * at + 10, 10)} for at in range(4)], crs=None)
    browser.execute_script(
        "window.told = []; window.gandovelMap = new ParcelMap(document.getElementById('map'), {"
        "layers: [{name: 'parcels', draw: 'areas', look: 'parcel'}], looks: {parcel: {fill: 'ok'}},"
        "onPick: (features) => told.push(features.map((it) => it.id))});"
        "gandovelMap.setLayer('parcels', ParcelMap.features(JSON.parse(arguments[0]), 'id'));"
        "gandovelMap.select(gandovelMap.features('parcels')[3]); gandovelMap.showAll();",
        squares.to_json(),
    )
    before = (pixels(browser) == [0, 255, 0]).all(axis=2).sum()
    merged = frame([{"id": "9", "geometry": box(0, 0, 20, 10)}], crs=None)
    browser.execute_script(
        "gandovelMap.replace('parcels', [0, 1, 3], ParcelMap.features(JSON.parse(arguments[0]), 'id'))",
        merged.to_json(),
    )
    after = (pixels(browser) == [0, 255, 0]).all(axis=2).sum()
    assert after == pytest.approx(before * 3 / 4, rel=0.05)
    field = one(browser, "#map")
    for right in (-150, -60, 150):
        ActionChains(browser).move_to_element_with_offset(field, right, 0).click().perform()
    assert browser.execute_script("return told") == [["9"], ["9"], []]
    assert browser.execute_script("return gandovelMap.view().selected") is None


# ---- refusals


def torn(path: Path) -> None:
    data = report(path).read_bytes()
    path.write_bytes(data[: len(data) // 2])


def without_parcels(path: Path) -> None:
    write_layers(path, [("plots", frame(parcels_of(2)))], {})


def without_numbers(path: Path) -> None:
    write_layers(path, [("parcels", frame(parcels_of(2)).drop(columns="number"))], {})


def with_bad_shape(path: Path) -> None:
    with closing(sqlite3.connect(report(path))) as connection:
        connection.execute("UPDATE parcels SET geom = substr(geom, 1, 40) WHERE fid = 2")
        connection.commit()


def with_no_number(path: Path) -> None:
    rows = parcels_of(2)
    rows[1]["geometry"] = Polygon([(0, 0), (float("nan"), 1), (1, 1)])
    write_layers(path, [("parcels", frame(rows))], {})


def far_apart(path: Path) -> None:
    rows = parcels_of(2)
    rows[1]["geometry"] = box(1e9, 1e9, 1e9 + 1, 1e9 + 1)
    write_layers(path, [("parcels", frame(rows))], {})


def plain_database(path: Path) -> None:
    with closing(sqlite3.connect(path)) as connection:
        connection.execute("CREATE TABLE parcels (number TEXT)")


@pytest.mark.parametrize(
    "make, said",
    [
        (lambda path: None, "is not there"),
        (lambda path: path.write_text("no report"), "can't be read as a GeoPackage"),
        (lambda path: path.write_bytes(b""), "can't be read as a GeoPackage"),
        (lambda path: path.mkdir(), "is not there"),
        (torn, "can't be read as a GeoPackage"),
        (plain_database, "can't be read as a GeoPackage"),
        (without_parcels, "has no layer parcels"),
        (without_numbers, "has no column number"),
        (with_bad_shape, "the shape of row 2 can't be read"),
        (with_no_number, "no number"),
        (far_apart, "more than 2,000 km apart"),
    ],
)
def test_refuses_what_is_no_report(
    tmp_path: Path, capsys: pytest.CaptureFixture[str], make: Callable[[Path], Any], said: str
) -> None:
    source = tmp_path / "report.gpkg"
    make(source)
    assert main(["map", str(source), "--out", str(tmp_path / "map.html")]) == 4
    printed = capsys.readouterr()
    assert printed.out == "" and re.fullmatch(r"error: (parcels: )?P1 .*\n", printed.err) and said in printed.err
    assert {it.name for it in tmp_path.iterdir()} <= {"report.gpkg"}


def test_keeps_the_report_and_what_stood_there(tmp_path: Path) -> None:
    source = report(tmp_path / "report.gpkg")
    before = source.read_bytes()
    with pytest.raises(Refused, match="P14|is the report"):
        write_map(source, source)
    with pytest.raises(Refused, match="can't be written"):
        write_map(source, tmp_path / "no folder" / "map.html")
    page = tmp_path / "map.html"
    page.write_text("an earlier page")
    (tmp_path / "bad.gpkg").write_text("no report")
    with pytest.raises(Refused, match="can't be read"):
        write_map(tmp_path / "bad.gpkg", page)
    assert page.read_text() == "an earlier page" and source.read_bytes() == before
