"""Forked children of a process that holds a session: they end nothing of it."""
from __future__ import annotations

import os
import subprocess
import sys

import pytest

from session_town import SECONDS

pytestmark = pytest.mark.usefixtures("in_time")

FORKED = """
import gc, os, pathlib, sys
import gandovel as gv
how, city, parcels, journal = sys.argv[1:]
session = gv.Session(city, parcels, journal=journal, desks=["anna"])
anna = session.desk("anna", 20)
anna.merge(1, 2)
if os.fork() == 0:
    if how == "leaves its context":
        with session:
            pass
    elif how == "closes":
        assert session.close() is None and session.close() is None
    elif how == "terminates":
        session.terminate()
    elif how == "forgets":
        del session
        gc.collect()
    elif how == "asks":
        try:
            session.check()
            sys.exit(8)
        except gv.SessionClosed:
            pass
    sys.exit(7)
assert os.waitstatus_to_exitcode(os.wait()[1]) == 7
there = sorted(name for name in os.listdir(os.path.dirname(session.path("anna"))) if not name.endswith(".held"))
assert there == ["anna.in", "anna.lock", "anna.out"]
assert anna.entries() == 1
anna.close()
with session.desk("anna", 20) as desk:
    assert desk.entries() == 1
folder = pathlib.Path(session.path("anna")).parent
assert session.close() == 1 and not folder.exists()
print("closed")
"""


@pytest.mark.parametrize("how", ["ends", "leaves its context", "closes", "terminates", "forgets", "asks"])
def test_a_forked_child_ends_nothing_of_its_parents(town, how):
    """However a child ends, its parent's session goes on, and has its pipes until it closes."""
    words = [sys.executable, "-c", FORKED, how, str(town.city), str(town.parcels), str(town.journal)]
    places = {**os.environ, "PYTHONPATH": os.pathsep.join(sys.path)}
    parent = subprocess.run(words, capture_output=True, env=places, timeout=SECONDS)
    assert (parent.stdout, parent.returncode) == (b"closed\n", 0), parent.stderr
    assert town.lines() == ["merge 1 2"]
