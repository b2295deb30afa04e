"""The definition of the API, as OpenAPI 3.0: what FastAPI makes of the routes, in the form that its schema wants."""
from __future__ import annotations

from typing import Any, Dict, List, Optional

from fastapi import FastAPI

_REFUSAL = {"$ref": "#/components/schemas/Refusal"}
_STATUSES = {
    "400": "a parameter or a body that is not understood",
    "401": "no token that the server knows",
    "403": "a token of another role, or a page of another site",
    "429": "too many requests of this client",
    "503": "the register can't answer now",
}
_BOX = {"type": "array", "items": {"type": "number"}, "minItems": 4, "maxItems": 6}
_FORMS: Dict[str, Dict[str, Any]] = {
    "bbox": {"schema": _BOX, "style": "form", "explode": False},
    "bbox-crs": {"schema": {"type": "string", "format": "uri"}},
    "crs": {"schema": {"type": "string", "format": "uri"}},
    "datetime": {"schema": {"type": "string"}, "style": "form", "explode": False},
    "limit": {"style": "form", "explode": False},
}
"""Parameters as the standard has them, which the server reads as text."""
_OPEN = ("/", "/health", "/page/{name}", "/page/map/{name}")
"""What anyone may ask for."""


def definition(app: FastAPI, issuer: Optional[str] = None) -> Dict[str, Any]:
    """The document. `issuer` is the OpenID issuer, where there is one."""
    document: Dict[str, Any] = _told(app.openapi())
    schemas = document.setdefault("components", {}).setdefault("schemas", {})
    for name in ("HTTPValidationError", "ValidationError"):
        schemas.pop(name, None)
    for path, methods in document["paths"].items():
        for operation in methods.values():
            _put_right(operation, schemas)
            if path in _OPEN:
                operation["security"] = []
    schemes: Dict[str, Any] = {
        "token": {"type": "http", "scheme": "bearer", "description": "a token that the operator gave"},
        "name_and_token": {"type": "http", "scheme": "basic", "description": "the token as password"},
    }
    if issuer is not None:
        address = issuer.rstrip("/") + "/.well-known/openid-configuration"
        schemes["openid"] = {"type": "openIdConnect", "openIdConnectUrl": address}
    document["components"]["securitySchemes"] = schemes
    document["security"] = [{name: []} for name in schemes]
    return document


def _put_right(operation: Dict[str, Any], schemas: Dict[str, Any]) -> None:
    """Says of an operation what is refused, as it is; and puts the schemas of its body where they are looked for."""
    responses = operation["responses"]
    responses.pop("422", None)
    for status, text in _STATUSES.items():
        responses.setdefault(status, {"description": text, "content": {"application/json": {"schema": _REFUSAL}}})
    for parameter in operation.get("parameters", []):
        parameter.update(_FORMS.get(parameter["name"], {}))
    for content in operation.get("requestBody", {}).get("content", {}).values():
        schemas.update(content["schema"].pop("definitions", {}))


def _told(value: Any) -> Any:
    """A copy in the words of OpenAPI 3.0: the items of an array have one schema, that of its first."""
    if isinstance(value, list):
        return [_told(it) for it in value]
    if not isinstance(value, dict):
        return value
    told = {name: _told(it) for name, it in value.items()}
    items: Any = told.get("items")
    if isinstance(items, list) and items:
        told["items"] = items[0]
    return told


def paths_of(document: Dict[str, Any]) -> List[Dict[str, Any]]:
    """The operations of a definition as rows of a table."""
    return [
        {"method": method.upper(), "address": path, "what": it.get("summary", ""), "more": it.get("description", "")}
        for path, methods in document["paths"].items()
        for method, it in methods.items()
    ]
