"""The page for clerks in a browser: one splits a parcel, a second sees it, a third whose number is old is told so."""
from __future__ import annotations

import pytest

from served import Served, moved, prepared, replayed, until
from session_register import grid_city

CITY, RINGS = grid_city(4, 4, 3)


@pytest.fixture(scope="module")
def served(tmp_path_factory):
    folder = tmp_path_factory.mktemp("page")
    with Served(prepared(folder / "work", CITY, RINGS), folder / "register.txt") as served:
        yield served


@pytest.fixture(scope="module")
def browser():
    from selenium import webdriver
    from selenium.webdriver.chrome.service import Service

    options = webdriver.ChromeOptions()
    for word in (
        "--headless=new",
        "--no-sandbox",
        "--disable-gpu",
        "--window-size=1200,900",
        "--disable-dev-shm-usage",
    ):
        options.add_argument(word)
    options.set_capability("goog:loggingPrefs", {"browser": "ALL"})
    driver = webdriver.Chrome(service=Service("/usr/bin/chromedriver"), options=options)
    yield driver
    driver.quit()


@pytest.fixture(autouse=True)
def few_tabs(browser):
    """A browser has six connections to a server, and each page's stream takes one: a test's tabs are closed after
    it."""
    yield
    first, *others = browser.window_handles
    for handle in others:
        browser.switch_to.window(handle)
        browser.close()
    browser.switch_to.window(first)


class Window:
    """A tab of the browser with the page."""

    def __init__(self, browser, address):
        browser.switch_to.new_window("tab")
        self.browser, self.handle = browser, browser.current_window_handle
        browser.get(address + "/")
        until(lambda: "parcels after" in self.text("state"))

    def here(self):
        self.browser.switch_to.window(self.handle)

    def text(self, name):
        self.here()
        return self.browser.find_element("id", name).text

    def press(self, selector):
        self.here()
        self.browser.find_element("css selector", selector).click()

    def type(self, name, text):
        self.here()
        self.browser.find_element("id", name).send_keys(text)

    def drawn(self):
        """The ids of the parcels that the map draws."""
        self.here()
        ids = self.browser.execute_script("return drawing.parcels.features('parcels').map((it) => it.properties.id)")
        return sorted(ids)

    def click_place(self, place):
        """Clicks the map at a place in mm."""
        from selenium.webdriver import ActionChains

        self.here()
        script = (
            "const p = drawing.map.latLngToContainerPoint(drawing.latlng(arguments[0])), s = drawing.map.getSize();"
            "return [p.x - s.x / 2, p.y - s.y / 2];"
        )
        x, y = self.browser.execute_script(script, list(place))
        element = self.browser.find_element("id", "map")
        ActionChains(self.browser).move_to_element_with_offset(element, round(x), round(y)).click().perform()

    def choose(self, number):
        self.here()
        box = self.browser.find_element("id", "number")
        box.clear()
        box.send_keys(number)
        self.press("#search button")
        until(lambda: number in self.text("parcel").splitlines()[0])


def test_three_windows(served, browser):
    clerk, second, third = (Window(browser, served.address) for _ in range(3))
    third.here()
    browser.execute_script("register.take = async () => {};")
    clerk.choose("A6")
    assert "zones" in clerk.text("parcel") and "It is as it was read." in clerk.text("parcel")

    clerk.press('[data-tool="split"]')
    ring = moved(RINGS[5])
    clerk.click_place(ring[0])
    assert "has to" in clerk.text("reason") or "needs a corner" in clerk.text("reason")
    assert not browser.find_element("id", "send").is_enabled()
    clerk.click_place(ring[2])
    until(lambda: clerk.text("reason") == "It can be sent.")
    clerk.type("why", "sold")
    clerk.press("#send")
    until(lambda: clerk.text("answer").startswith("Done: entry 1"))
    assert served.lines() == [f"split 6 {ring[0][0]} {ring[0][1]} {ring[2][0]} {ring[2][1]}"]

    until(lambda: "17 parcels after 1 entries; last: split by local" in second.text("state"))
    second.choose("A6")
    until(lambda: "entry 1, split, local" in second.text("parcel"))
    assert "sold" in second.text("parcel")
    assert second.drawn() == sorted(replayed(CITY, RINGS, served.lines()).rings)

    third.choose("A1")
    third.press('[data-tool="merge"]')
    assert third.text("reason") == "Click the neighbour."
    for said in ("It can be sent.", "Click the neighbour.", "It can be sent."):
        if said.startswith("It"):
            third.click_place([sum(z) // 4 for z in zip(*moved(RINGS[1]))])
        else:
            third.press("#undo")
        until(lambda: third.text("reason") == said)
    third.press("#send")  # it has not heard of entry 1, which is of another parcel
    until(lambda: third.text("answer").startswith("Done: entry 2"))
    assert served.lines()[1] == "merge 1 2"

    third.choose("A9")
    third.press('[data-tool="merge"]')
    third.click_place([sum(z) // 4 for z in zip(*moved(RINGS[9]))])
    until(lambda: third.text("reason") == "It can be sent.")
    assert served.edit("merge 10 11").status_code == 200
    third.press("#send")
    until(lambda: "The register has gone on to entry 3 (merge by local)" in third.text("answer"))
    assert len(served.lines()) == 3
    replayed(CITY, RINGS, served.lines())
    for window in (clerk, second, third):
        window.here()
        wrong = [it for it in browser.get_log("browser") if it["level"] == "SEVERE"]
        assert [it for it in wrong if "412" not in it["message"]] == []


def test_corners_are_typed(served, browser):
    """A clerk without a mouse: the cut's corners are typed to the millimetre; what is no place is told."""
    window = Window(browser, served.address)
    ring = moved(RINGS[15])
    window.choose("A16")
    window.press('[data-tool="split"]')
    for text in ("", "600000", "1,5 2,5 3", "600000.1234 5500000"):
        window.type("place", text)
        window.press("#put")
        assert "with three decimals at most" in window.text("answer"), text
        browser.find_element("id", "place").clear()
    middle = [sum(z) // 4 + 1 for z in zip(*ring)]
    for place in (ring[0], middle, ring[2]):
        window.type("place", " ".join(f"{z // 1000}.{z % 1000:03d}" for z in place))
        window.press("#put")
    until(lambda: window.text("reason") == "It can be sent.")
    window.press("#send")
    until(lambda: window.text("answer").startswith("Done: entry"))
    path = " ".join(f"{x} {y}" for x, y in (ring[0], middle, ring[2]))
    assert served.lines()[-1] == f"split 16 {path}"


def test_numbers_are_drawn_and_the_whole_lineage(served, browser):
    window = Window(browser, served.address)
    ids = [it["id"] for it in served.ask("/collections/parcels/items?number=A16").json()["features"]]
    assert served.edit("merge {} {}".format(*ids)).status_code == 200
    until(lambda: "last: merge" in window.text("state"))
    window.choose("A16")
    until(lambda: "Made by" in window.text("parcel"))
    told = window.text("parcel")
    assert "without a number, from A16" in told.splitlines()[0]
    assert told.index("merge, local") < told.index("split, local") < told.index("parcel A16")
    script = "return [...document.querySelectorAll('.number span')].map((it) => it.textContent)"
    window.here()
    browser.execute_script("drawing.parcels.showAll(); drawing.numbers();")
    numbers = {it["number"] for it in served.ask("/parcels").json()["parcels"]} - {None}
    assert set(browser.execute_script(script)) == numbers
    browser.execute_script("drawing.map.setZoom(drawing.map.getZoom() - 6, { animate: false })")
    until(lambda: browser.execute_script(script) == [])


def test_checks_agree_with_the_program(served, browser):
    """Drafts at random: what the page lets pass the program takes, and what it refuses the program refuses."""
    import random

    window = Window(browser, served.address)
    window.here()
    draw = random.Random(5)
    model = replayed(CITY, RINGS, served.lines())
    agreed = {True: 0, False: 0}
    for _ in range(120):
        one, other = draw.sample(sorted(model.rings), 2)
        ring, theirs = model.rings[one], model.rings[other]
        kind = draw.choice(["split", "merge", "move", "straighten"])
        corners = [draw.choice(ring), draw.choice(ring if draw.random() < 0.7 else theirs)]
        if draw.random() < 0.5:
            corners.insert(1, tuple(sum(z) // len(ring) + draw.randrange(-900, 900) for z in zip(*ring)))
        path = [list(it) for it in corners]
        text = " ".join(f"{x} {y}" for x, y in corners)
        call, line = {
            "split": ("split(r, p)", f"split {one} {text}"),
            "merge": ("merge(r, o)", f"merge {one} {other}"),
            "move": ("move(r, o, p)", f"move {one} {other} {text}"),
            "straighten": (
                "straighten([...register.parcels.values()].map((it) => it.ring_mm), p[0])",
                f"straighten {corners[0][0]} {corners[0][1]}",
            ),
        }[kind]
        script = f"const [r, o, p] = arguments; return Checks.{call};"
        reason = browser.execute_script(script, [list(it) for it in ring], [list(it) for it in theirs], path)
        try:
            model.change(line)
            fits = True
        except Exception:
            fits = False
        assert fits == (reason == ""), (line, reason)
        agreed[fits] += 1
    assert min(agreed.values()) > 5, agreed


def test_on_a_phone_and_without_a_token(served, browser, tmp_path):
    window = Window(browser, served.address)
    window.here()
    browser.set_window_size(390, 844)
    window.choose("A11")
    wide = browser.execute_script("return [document.documentElement.scrollWidth, innerWidth]")
    assert wide[0] <= wide[1]
    for name in ("map", "tools", "parcel"):
        assert browser.find_element("id", name).size["width"] > 200


def test_a_keyboard_alone_makes_an_edit(served, browser):
    """Corners and neighbours are chosen from lists, a bearing is typed; each control has a name for a screen reader."""
    from selenium.webdriver import Keys
    from selenium.webdriver.support.ui import Select

    window = Window(browser, served.address)
    ring = [tuple(it) for it in served.ask("/parcels/8").json()["ring_mm"]]
    window.type("number", "A8" + Keys.ENTER)
    until(lambda: "A8" in window.text("parcel").splitlines()[0])
    nameless = (
        "return [...document.querySelectorAll('button, input, select')].filter((it) => !(it.innerText || it.labels"
    )
    assert browser.execute_script(f"{nameless} && it.labels.length || it.ariaLabel)).map((it) => it.id)") == []
    browser.find_element("css selector", '[data-tool="split"]').send_keys(Keys.ENTER)
    window.type("place", "@45.5 20" + Keys.ENTER)
    assert window.text("answer").startswith("A bearing begins in a corner")
    browser.find_element("id", "place").clear()
    Select(browser.find_element("id", "corner")).select_by_index(0)
    browser.find_element("id", "take-corner").send_keys(Keys.ENTER)
    for text, east, north in (
        ("@90 2", 2000, 0),
        ("@ 0, 1.5", 0, 1500),
        ("@100g 0.5", 500, 0),
        ("@45 30 0 2", 1427, 1402),
    ):
        before = browser.execute_script("return register.draft.path.at(-1)")
        window.type("place", text + Keys.ENTER)
        after = browser.execute_script("return register.draft.path.at(-1)")
        assert [b - a for a, b in zip(before, after)] == [east, north], text
        assert "rounded to the millimetre" in window.text("answer")
    for text in ("@361 2", "@45 61 0 2", "@x 2", "@45"):
        window.type("place", text + Keys.ENTER)
        assert window.text("answer") and "rounded" not in window.text("answer"), text
        browser.find_element("id", "place").clear()
    for _ in range(4):
        browser.find_element("id", "undo").send_keys(Keys.ENTER)
    Select(browser.find_element("id", "corner")).select_by_index(2)
    browser.find_element("id", "take-corner").send_keys(Keys.ENTER)
    until(lambda: window.text("reason") == "It can be sent.")
    browser.find_element("id", "send").send_keys(Keys.ENTER)
    until(lambda: window.text("answer").startswith("Done: entry"))
    assert served.lines()[-1] == f"split 8 {ring[0][0]} {ring[0][1]} {ring[2][0]} {ring[2][1]}"

    window.type("number", Keys.CONTROL + "a")
    window.type("number", "A7" + Keys.ENTER)
    until(lambda: "A7" in window.text("parcel").splitlines()[0])
    browser.find_element("css selector", '[data-tool="merge"]').send_keys(Keys.ENTER)
    told = {it.get_attribute("value") for it in Select(browser.find_element("id", "neighbour")).options}
    model = replayed(CITY, RINGS, served.lines())
    edges = lambda one: {frozenset(it) for it in zip(model.rings[one], model.rings[one][1:] + model.rings[one][:1])}
    assert told and {int(it) for it in told} <= {it for it in model.rings if it != 7 and edges(it) & edges(7)}


def test_zones_are_drawn_and_a_click_snaps(served, browser):
    window = Window(browser, served.address)
    until(lambda: browser.execute_script("return drawing.parcels.features('zones').length") == 2)
    ends = browser.execute_script("return drawing.parcels.features('zones').map((it) => it.box)")
    box = browser.execute_script("return register.settings.box_mm.map((it) => it / 1000)")
    for side in (0, 1):
        assert min(it[side] for it in ends) == pytest.approx(0, abs=1e-3)
        assert max(it[side + 2] for it in ends) == pytest.approx(box[side + 2] - box[side], abs=1e-3)
    corner = moved(RINGS[11])[0]
    script = "const [x, y] = arguments[0], [k] = arguments[1]; return drawing.snapped([x + k, y + k])"
    pixel = browser.execute_script("return 1000 / drawing.parcels.scale()")
    assert browser.execute_script(script, list(corner), [round(3 * pixel)]) == list(corner)
    assert browser.execute_script("return drawing.snapped(arguments[0].map((it) => it - 1e6))", list(corner)) is None


def test_a_parcel_is_printed(served, browser):
    """Its corners, bearings and distances, and the digest of the entry that made it."""
    window = Window(browser, served.address)
    window.choose("A8")
    browser.execute_script("window.print = () => { window.printed = $('sheet').innerText; };")
    window.press("#print")
    text = until(lambda: browser.execute_script("return window.printed || ''"))
    number = int(browser.execute_script("return register.chosen"))
    made = served.ask(f"/parcels/{number}/lineage").json()
    digest = {it["id"]: it for it in made["parcels"]}[number]["made_by"]["digest"]
    assert digest in text and "exact" in text and "measured" in text
    for x, y in served.ask(f"/parcels/{number}").json()["ring_mm"]:
        assert f"{x // 1000}.{x % 1000:03d}" in text and f"{y // 1000}.{y % 1000:03d}" in text
    assert not browser.find_element("id", "sheet").is_displayed()


def test_a_large_register_is_loaded_by_what_is_seen(served, browser):
    """Squares that are seen are loaded, each once; a number is found wherever it is."""
    window = Window(browser, served.address)
    count = len(window.drawn())
    browser.execute_script(
        "cells.most = 5; cells.asked = 0; register.follow = () => {};"
        "const load = cells.load; cells.load = (it) => { cells.asked++; return load(it); };"
    )
    browser.execute_script("register.load().then(() => { window.isLoaded = true; })")
    until(lambda: browser.execute_script("return window.isLoaded"))
    assert browser.execute_script("return cells.side") > 0
    browser.execute_script(
        "register.parcels.clear(); drawing.parcels.setLayer('parcels', []); cells.loaded.clear(); cells.asked = 0;"
        "const box = register.settings.box_mm; cells.side = Math.ceil((box[2] - box[0]) / 12);"
        "drawing.showPlace(cells.first(box), 0.95)"
    )
    until(lambda: browser.execute_script("return cells.asked") > 0 and 0 < len(window.drawn()))
    assert len(window.drawn()) < count and f"{count} parcels" in window.text("state")
    window.choose("A13")
    until(lambda: 13 in window.drawn())
    browser.execute_script("drawing.showPlace(register.settings.box_mm, 0.2)")
    until(lambda: window.text("far").startswith("Come nearer"))


def test_a_base_map_is_below_the_parcels(tmp_path, browser):
    """Its pictures are asked for in the register's projection, and the policy lets them in."""
    options = "--base-map", "http://127.0.0.1:9/wms?layers=photo"
    with Served(prepared(tmp_path / "work", CITY, RINGS), tmp_path / "register.txt", *options) as served:
        assert " http://127.0.0.1:9;" in served.ask("/?f=html").headers["content-security-policy"]
        window = Window(browser, served.address)
        window.here()
        found = until(
            lambda: browser.execute_script("return [...document.querySelectorAll('#map img')].map((it) => it.src)")
        )
        query = dict(it.split("=") for it in found[0].partition("?")[2].split("&"))
        assert query["layers"] == "photo" and query["srs"] == "EPSG%3A25832" and query["request"] == "GetMap"
        west, south, east, north = map(float, query["bbox"].split("%2C"))
        box = [it / 1000 for it in served.ask("/settings").json()["box_mm"]]
        assert (
            west < box[2]
            and east > box[0]
            and south < box[3]
            and north > box[1]
            and east - west == pytest.approx(north - south)
        )


def test_a_draft_is_kept_seen_and_dropped(served, browser):
    """It is drawn and told as it would be; its own clerk can't approve it; the journal has none of it."""
    window, before = Window(browser, served.address), served.lines()
    ring = served.ask("/parcels/14").json()["ring_mm"]
    window.choose("A14")
    window.press('[data-tool="split"]')
    window.click_place(ring[0])
    window.click_place(ring[2])
    until(lambda: window.text("reason") == "It can be sent.")
    window.press("#keep")
    until(lambda: window.text("answer").startswith("Kept as a draft. It would bring "))
    assert "split of A14 by local" in window.text("kept") and "m²" in window.text("answer")
    see, approve, drop = browser.find_elements("css selector", "#kept button")
    see.click()
    until(lambda: browser.execute_script("return drawing.draft.getLayers().length") == 2)
    assert window.text("answer").startswith("It would bring ")
    approve.click()
    until(lambda: "another clerk has to approve it" in window.text("answer"))
    browser.find_elements("css selector", "#kept button")[2].click()
    until(lambda: window.text("kept") == "")
    assert served.lines() == before and served.ask("/drafts").json() == {"drafts": []}
