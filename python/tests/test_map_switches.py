"""The map page's switches, its numbers, the link to a parcel, and the print of one, in a headless browser."""
from __future__ import annotations

import sqlite3
from contextlib import closing
from pathlib import Path
from typing import Any, Dict, List

import pytest
from gandovel.cli import main
from gandovel.out.gpkg import write_layers
from gandovel.out.map import write_map
from selenium.webdriver.common.by import By
from selenium.webdriver.common.keys import Keys
from selenium.webdriver.remote.webdriver import WebDriver
from selenium.webdriver.support.wait import WebDriverWait
from shapely.geometry import Point, box

from test_map import (  # noqa: F401
    EAST,
    NORTH,
    browser,
    chromium,
    colour,
    fault,
    frame,
    one,
    opened,
    parcels_of,
    pixels,
    report,
    screen,
    settle,
    view,
)

ABOUT = "UPDATE gpkg_contents SET description = ?, last_change = ? WHERE table_name = 'parcels'"


def told(path: Path, description: str, time: str = "2026-11-30T12:34:56.789Z") -> Path:
    """A report that says this of its parcels, written then."""
    with closing(sqlite3.connect(path)) as connection, connection:
        connection.execute(ABOUT, (description, time))
    return path


def turn(browser: WebDriver, name: str) -> None:
    """Turns a switch of the legend."""
    one(browser, f"#legend [data-switch={name}]").click()
    settle(browser)


def counted(browser: WebDriver, name: str) -> int:
    """How many pixels of the map have a colour of the page's style."""
    return int((pixels(browser) == colour(browser, name)).all(axis=2).sum())


def test_numbers_are_drawn_where_there_is_room(browser: WebDriver, tmp_path: Path) -> None:
    """All of nine parcels; of 16,384 none until one is near; none where the switch is off."""
    opened(browser, report(tmp_path / "town.gpkg"))
    assert sorted(view(browser)["numbered"]) == [str(at) for at in range(101, 110)]
    letters = (
        "const it = gandovelMap.canvas, seen = it.getContext('2d').getImageData(0, 0, it.width, it.height).data;"
        "return new Uint32Array(seen.buffer).reduce((sum, one, at) => sum + (one !== gandovelMap.raster.pixels[at]), 0)"
    )
    assert browser.execute_script(letters) > 500
    turn(browser, "numbers")
    assert view(browser)["numbered"] == [] and browser.execute_script(letters) == 0
    opened(browser, report(tmp_path / "large.gpkg", zones=False, faults=False, side=128))
    assert view(browser)["numbered"] == []
    one(browser, "#number").send_keys("8000", Keys.ENTER)
    assert "8000" in view(browser)["numbered"] and len(view(browser)["numbered"]) < 40


def test_a_longer_number_than_its_parcel_is_wide_is_left_out(browser: WebDriver, tmp_path: Path) -> None:
    opened(browser, report(tmp_path / "town.gpkg", first="12345-678/90 of the old register, sheet 17 east", side=3))
    assert sorted(view(browser)["numbered"]) == [str(at) for at in range(102, 110)]


def test_each_layer_has_a_switch(browser: WebDriver, tmp_path: Path) -> None:
    """Zones, split parcels, gaps and overlaps each by itself; a click tells nothing of what is hidden."""
    opened(browser, report(tmp_path / "town.gpkg"))
    names = [it.get_attribute("data-switch") for it in browser.find_elements(By.CSS_SELECTOR, "#legend input")]
    assert names == ["parcel", "numbers", "split", "gaps", "overlaps", "zone"]
    for name in ("gap", "overlap", "hatch", "zone", "ok"):
        assert counted(browser, name) > 0
    for switch, shade, other in (("gaps", "gap", "overlap"), ("overlaps", "overlap", "gap"), ("split", "hatch", "gap")):
        turn(browser, switch)
        assert counted(browser, shade) == 0 and counted(browser, other) > 0
        turn(browser, switch)
        assert counted(browser, shade) > 0
    before = counted(browser, "zone")
    turn(browser, "zone")
    assert counted(browser, "zone") < before / 10
    turn(browser, "parcel")
    assert counted(browser, "ok") == 0 and view(browser)["numbered"] == []
    one(browser, "#map").send_keys(Keys.ENTER)
    assert not one(browser, "#details").is_displayed()


@pytest.mark.parametrize("wide, shown", [(1000, True), (390, False)])
def test_crosses_are_one_switch_that_is_off_on_a_phone(
    browser: WebDriver, tmp_path: Path, wide: int, shown: bool
) -> None:
    screen(browser, wide, 800)
    rows: List[Dict[str, Any]] = [{"distance_mm": 0.25, "geometry": Point(EAST + 20, NORTH + 10)}]
    write_layers(tmp_path / "touched.gpkg", [("parcels", frame(parcels_of(3))), ("touched", frame(rows))], {})
    opened(browser, tmp_path / "touched.gpkg")
    for expected in (shown, not shown, shown):
        assert one(browser, "#legend [data-switch=touched]").is_selected() is expected
        settle(browser)
        assert (counted(browser, "touched") > 0) is expected
        turn(browser, "touched")


@pytest.mark.parametrize("number", ["12-3/4", "7 % 2#a&b", "Ä<b>", "%E0%A4%A"])
def test_a_link_leads_to_one_parcel(browser: WebDriver, tmp_path: Path, number: str) -> None:
    """The address names what is chosen; opened anew, it shows that parcel, and what lies there."""
    opened(browser, report(tmp_path / "town.gpkg", first=number, zones=False, faults=False))
    page = browser.current_url
    one(browser, "#number").send_keys(number, Keys.ENTER)
    address = browser.current_url
    assert address.startswith(f"{page}#parcel=") and ("/" in number) == ("/4" in address.partition("#")[2])
    assert one(browser, "#details a[href^='#parcel=']").get_attribute("href") == address
    browser.get("about:blank")
    browser.get(address)
    WebDriverWait(browser, 60).until(lambda it: it.execute_script("return document.body.dataset.drawn"))
    assert view(browser)["picked"] == number and one(browser, "#details b").text == f"Parcel {number}"
    one(browser, "body").send_keys(Keys.ESCAPE)
    assert "parcel" not in browser.current_url.partition("#")[2]


def test_a_link_to_no_parcel_says_so(browser: WebDriver, tmp_path: Path) -> None:
    """Not the first that begins so; and a second address is followed while the page is open."""
    opened(browser, report(tmp_path / "town.gpkg"))
    page = browser.current_url
    browser.get(f"{page}#parcel=10")
    WebDriverWait(browser, 60).until(lambda it: one(it, "#found").text)
    assert one(browser, "#found").text == "the link names parcel 10, which is not in this report"
    assert view(browser)["picked"] is None
    browser.get(f"{page}#parcel=105")
    WebDriverWait(browser, 60).until(lambda it: one(it, "#found").text == "parcel 105")
    assert view(browser)["picked"] == "105"


def printed(browser: WebDriver, number: str) -> str:
    """What the print of a parcel has, as on paper; on the screen it is gone again."""
    browser.execute_script("window.print = () => { window.printed = document.getElementById('sheet').innerText; }")
    one(browser, "#number").clear()
    one(browser, "#number").send_keys(number, Keys.ENTER)
    one(browser, "#details .print").click()
    assert not one(browser, "#sheet").is_displayed()
    text: str = browser.execute_script("return window.printed")
    return text


def test_a_parcel_is_printed_with_verdict_date_and_basis(browser: WebDriver, tmp_path: Path) -> None:
    basis = "no grid, and no noise; corners are compared exactly. By parcel_tool 1.1.0."
    path = told(report(tmp_path / "town.gpkg"), f"Exact: status. The verdict stands on: {basis}")
    opened(browser, path)
    text = printed(browser, "104")
    assert text.startswith("Parcel 104") and "100 m² (measured)" in text and "zone W (measured)" in text
    assert "Overlap, 4 m²; at parcels 104, 105 (measured); twice its area: 8000000 mm² (exact)" in text
    verdict = "the parcels do not tile the city: there are gaps or overlaps"
    assert f"Of the report town, 2026-11-30 12:34 UTC: {verdict}." in text
    assert f"The verdict stands on: {basis}" in text and "9 parcels; gaps: 1, overlaps: 1" in text
    drawn = "return Array.from(document.querySelectorAll('#sheet path'), (it) => it.getAttribute('class')).join(' ')"
    # parcels that the box around it meets, the gap or overlap there, and the parcel itself on top
    assert browser.execute_script(drawn) == "parcels parcels parcels parcels parcels faults this"


def test_the_print_is_the_sheet_alone(browser: WebDriver, tmp_path: Path) -> None:
    """On paper neither map nor list is seen, and one page has it."""
    opened(browser, told(report(tmp_path / "town.gpkg"), "The verdict stands on: nothing."))
    printed(browser, "104")
    browser.execute_script("document.getElementById('sheet').hidden = false")
    browser.execute_cdp_cmd("Emulation.setEmulatedMedia", {"media": "print"})  # type: ignore[attr-defined]
    try:
        assert one(browser, "#sheet h1").is_displayed() and not one(browser, "#map").is_displayed()
        made = browser.execute_cdp_cmd("Page.printToPDF", {})  # type: ignore[attr-defined]
        assert made["data"]
    finally:
        browser.execute_cdp_cmd("Emulation.setEmulatedMedia", {"media": ""})  # type: ignore[attr-defined]


@pytest.mark.parametrize(
    "layer, said",
    [
        ("none", "the parcels tile the city: no gap, no overlap"),
        ("open_gaps", "the parcels tile the city that they make, which has gaps that are open to the outside"),
        ("slivers", "the parcels do not tile the city: there are gaps or overlaps"),
    ],
)
def test_the_verdict_is_that_of_the_report(browser: WebDriver, tmp_path: Path, layer: str, said: str) -> None:
    rows = [fault("300000000", "101", box(EAST, NORTH + 9, EAST + 1, NORTH + 10))]
    layers = [("parcels", frame(parcels_of(3))), *([] if layer == "none" else [(layer, frame(rows))])]
    write_layers(tmp_path / "it.gpkg", layers, {})
    opened(browser, tmp_path / "it.gpkg")
    text = printed(browser, "105")
    assert said in text and "The report does not say what its verdict stands on." in text


def test_a_real_report_has_verdict_date_and_basis(browser: WebDriver, tmp_path: Path) -> None:
    """Written by `gandovel report`: the basis is the one that it prints."""
    rows = [
        {"parcel_no": f"12-{at}/4", "geometry": box(EAST + 10 * at, NORTH, EAST + 10 * at + 10, NORTH + 10)}
        for at in (0, 1)
    ]
    rows.append({"parcel_no": "13", "geometry": box(EAST, NORTH + 10, EAST + 19.5, NORTH + 20)})
    frame(rows).to_file(tmp_path / "plots.gpkg", driver="GPKG")
    source = tmp_path / "report.gpkg"
    assert main(["report", str(tmp_path / "plots.gpkg"), "--number", "parcel_no", "--out", str(source)]) == 0
    write_map(source, tmp_path / "report.html")
    browser.get((tmp_path / "report.html").as_uri())
    WebDriverWait(browser, 60).until(lambda it: it.execute_script("return document.body.dataset.drawn"))
    text = printed(browser, "12-1/4")
    assert "The verdict stands on: " in text and "By parcel_tool " in text and " UTC: " in text
