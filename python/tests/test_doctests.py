"""The public functions' docstrings: in numpydoc form, each with an example, which is run here."""
from __future__ import annotations

import doctest
import importlib
import inspect

import pytest

import gandovel as gv

MODULES = sorted(
    {getattr(gv, name).__module__ for name in gv.__all__ if ">>> " in (inspect.getdoc(getattr(gv, name)) or "")}
    | {"gandovel.program.edit_lines"}
)
FUNCTIONS = [name for name in gv.__all__ if inspect.isfunction(getattr(gv, name))]


def test_each_public_name_is_described():
    assert {"apply", "area", "check", "locate", "mend", "open", "overlay", "prepare", "report"} <= set(FUNCTIONS)
    for name in gv.__all__:
        value = getattr(gv, name)
        assert inspect.getdoc(value) and value.__module__.startswith("gandovel."), name


@pytest.mark.parametrize("name", FUNCTIONS)
def test_each_function_is_described_in_numpydoc_form(name):
    function = getattr(gv, name)
    said = inspect.getdoc(function)
    for heading in ("Returns\n-------", "Raises\n------", "Examples\n--------"):
        assert heading in said, heading
    assert "Parameters\n----------" in said or name in ("area", "overlay")
    finder = doctest.DocTestFinder(recurse=False)
    (test,) = finder.find(function, name, globs={})
    assert test.examples


@pytest.mark.parametrize("name", MODULES)
def test_the_examples_run(name):
    ended = doctest.testmod(importlib.import_module(name))
    assert ended.failed == 0 and ended.attempted > 0
