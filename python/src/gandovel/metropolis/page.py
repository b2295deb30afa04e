"""The page of a metropolis: its districts, and the newest entry of each."""
from __future__ import annotations

from typing import Any, Dict, List

from jinja2 import Environment

_PAGE = """<!doctype html>
<html lang="en"><head><meta charset="utf-8"><meta name="viewport" content="width=device-width, initial-scale=1">
<title>Districts</title><style>body{font:16px sans-serif;margin:2em}td,th{padding:.3em .8em;text-align:left;
border-bottom:1px solid #ccc}</style></head><body><h1>Districts</h1>
<p><a href="/entries">Entries</a> · <a href="/collections?f=html">Collections</a> · <a href="/api">API</a></p>
<table><thead><tr><th>district</th><th>state</th><th>entries</th><th>neighbours</th><th>newest entry</th></tr></thead>
<tbody>{% for it in districts %}<tr><td>{{ it.district }}</td><td>{{ it.state }}</td><td>{{ it.entries }}</td>
<td>{{ it.neighbours|join(", ") }}</td>
<td>{% if it.newest %}{{ it.newest.time }} {{ it.newest.who or "" }}: {{ it.newest.edit }}{% endif %}</td></tr>
{% endfor %}</tbody></table></body></html>
"""
_TEMPLATE = Environment(autoescape=True).from_string(_PAGE)


def page_of(districts: List[Dict[str, Any]]) -> str:
    """The page as HTML; words of clients are escaped."""
    return str(_TEMPLATE.render(districts=districts))
