"""A recording of two minutes at a terminal, as asciinema plays it (asciicast v2): commands are run, and what they print
is put down with the times at which somebody would have typed and read it."""
import json
import subprocess
from pathlib import Path
from typing import Dict, List, Tuple

STEPS = [
    ("Five parcels of a town, in cm. Do they tile it?", "parcel_tool check city.shp parcels.shp --unit cm"),
    ("Yes: twice the area is 19,200,000,000 square mm. Here parcel 5 begins 1 cm too far east.", ""),
    ("", "parcel_tool check city.shp parcels_with_a_gap.shp --unit cm --all"),
    ("Four edges round the gap, in mm. What does H2 mean?", "parcel_tool explain H2"),
    (
        "Whose is the point 60 m east and 10 m north?",
        "parcel_tool locate city.shp parcels.shp --unit cm --at 60000 10000",
    ),
    ("Three deeds: a parcel is cut, two become one, a border moves.", "cat edits.txt"),
    ("Do the parcels tile the town after them?", "parcel_tool check city.shp parcels.shp --unit cm --clerk edits.txt"),
    (
        "How much of each parcel lies in which zone then? Twice the areas:",
        "parcel_tool overlay city.shp parcels.shp zones.shp --unit cm --areas --clerk edits.txt | grep area",
    ),
    (
        "The new layer, for a GIS:",
        "parcel_tool export city.shp parcels.shp --unit cm --clerk edits.txt --out new && ls new.*",
    ),
    ("The same questions about your own layer: gandovel check parcels.gpkg", ""),
]
"""What is said as a comment, and the command behind it; either may be missing."""
SECONDS, WIDTH, HEIGHT = 120.0, 104, 32
"""How long it lasts, and the terminal's size: the longest command and its output fit."""
KEY, LINE = 0.04, 0.9
"""How long a key takes, and the reading of a line, before all is stretched to `SECONDS`."""


def printed_by(command: str, folder: Path, environment: Dict[str, str]) -> str:
    """What bash prints for a command, standard output and standard error together."""
    words = ["bash", "--noprofile", "--norc", "-c", f"exec 2>&1\n{command}"]
    ran = subprocess.run(
        words, cwd=folder, env=environment, stdin=subprocess.DEVNULL, stdout=subprocess.PIPE, timeout=60
    )
    return ran.stdout.decode()


def events_of(folder: Path, environment: Dict[str, str]) -> List[Tuple[float, str]]:
    """What appears when, in seconds from the beginning, before it is stretched."""
    events: List[Tuple[float, str]] = [(0.0, "$ ")]
    now = 1.0

    def typed(text: str) -> None:
        nonlocal now
        for key in text:
            now += KEY
            events.append((now, key))
        now += 0.4
        events.append((now, "\r\n"))

    for comment, command in STEPS:
        if comment:
            typed(f"# {comment}")
            now += LINE
            events.append((now, "$ "))
        if command:
            typed(command)
            printed = printed_by(command, folder, environment)
            now += 0.2
            events.append((now, printed.replace("\n", "\r\n")))
            now += LINE * (1 + printed.count("\n"))
            events.append((now, "$ "))
    events.append((now + 2, "\r\n"))
    return events


def cast(folder: Path, environment: Dict[str, str]) -> str:
    """The recording's text: a line of its head, and a line for each event. The same program gives the same text."""
    events = events_of(folder, environment)
    stretch = SECONDS / events[-1][0]
    head = {"version": 2, "width": WIDTH, "height": HEIGHT, "title": "A town of five parcels, checked exactly"}
    lines = [json.dumps(head)] + [json.dumps([round(at * stretch, 3), "o", text]) for at, text in events]
    return "\n".join(lines) + "\n"
