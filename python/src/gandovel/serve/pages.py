"""What the server answers, as plain pages of HTML."""
from __future__ import annotations

from pathlib import Path
from typing import Any, Dict, List

from jinja2 import Environment

from .openapi import paths_of

HERE = Path(__file__).parent / "page"

_PAGE = """<!doctype html>
<html lang="en"><head><meta charset="utf-8"><meta name="viewport" content="width=device-width, initial-scale=1">
<title>{{ title }}</title><link rel="stylesheet" href="/page/plain.css"></head><body>
<p><a href="/">Register</a> · <a href="/collections?f=html">Collections</a> · <a href="/api?f=html">API</a></p>
<h1>{{ title }}</h1>
{% if text %}<p>{{ text }}</p>{% endif %}
{% for link in links %}<p><a href="{{ link.href }}">{{ link.rel }}: {{ link.title or link.href }}</a>
({{ link.type }})</p>{% endfor %}
{% if rows %}<table><thead><tr>{% for name in names %}<th>{{ name }}</th>{% endfor %}</tr></thead><tbody>
{% for row in rows %}<tr>{% for name in names %}<td>{{ row[name] }}</td>{% endfor %}</tr>
{% endfor %}</tbody></table>{% endif %}
{% if facts %}<dl>{% for name, value in facts %}<dt>{{ name }}</dt><dd>{{ value }}</dd>{% endfor %}</dl>{% endif %}
</body></html>
"""
_TEMPLATE = Environment(autoescape=True).from_string(_PAGE)


def html_of(title: str, body: Dict[str, Any]) -> str:
    """A page that shows the body of an answer: its links, and its features or collections as a table."""
    rows: List[Dict[str, Any]] = []
    if "features" in body:
        rows = [it["properties"] for it in body["features"]]
    elif "collections" in body:
        rows = [{name: it[name] for name in ("id", "title", "description")} for it in body["collections"]]
    shown = body.get("properties", {key: it for key, it in body.items() if isinstance(it, (str, int, float))})
    if not isinstance(shown, dict) or "$schema" in body:
        shown = {name: it.get("title", "") for name, it in body.get("properties", {}).items()}
    if "conformsTo" in body:
        shown = dict(enumerate(body["conformsTo"], 1))
    facts = [(name, value) for name, value in shown.items() if name != "description"]
    names = list(dict.fromkeys(name for row in rows for name in row))
    links = [
        *body.get("links", []),
        *({**it["links"][1], "title": it["title"]} for it in body.get("collections", [])),
    ]
    return _TEMPLATE.render(title=title, text=body.get("description"), links=links, rows=rows, names=names, facts=facts)


def openapi_html(document: Dict[str, Any]) -> str:
    """The definition of the API as a table."""
    rows = paths_of(document)
    return _TEMPLATE.render(
        title=document["info"]["title"],
        text=document["info"]["description"],
        links=[{"href": "/api", "rel": "service-desc", "title": "as OpenAPI", "type": "application/json"}],
        rows=rows,
        names=["method", "address", "what", "more"],
        facts=[],
    )
