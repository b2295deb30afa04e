"""Why a request is not answered: each with the status of HTTP, a code, and what to do in words."""
from __future__ import annotations

from typing import Any, Dict, Optional

from ..errors import Refused, RefusedEdit


class Fault(Refused):
    """A request that is not carried out."""

    status_code = 400

    def __init__(self, code: str, text: str, **more: Any) -> None:
        super().__init__(code, text)
        self.more = more


class BadRequest(Fault):
    """A parameter or a body that can't be understood."""


class NoSuchThing(Fault):
    """There is no such page, parcel or feature."""

    status_code = 404


class Stale(Fault):
    """The register has gone on since the version that the client named."""

    status_code = 412


class Faulty(Fault):
    """The layer has faults: it is served for reading alone."""

    status_code = 409


class Gone(Fault):
    """A version that is not kept any more."""

    status_code = 410


class KeyReused(Fault):
    """The same key came with another edit."""

    status_code = 422


class TooBusy(Fault):
    """Too many requests of this client."""

    status_code = 429


class NotServing(Fault):
    """The session is being started anew, or ends."""

    status_code = 503


class Unknown(NotServing):
    """What became of an edit is known once the journal is read again."""


_WORDS = {
    "E1": "There never was a parcel {0}.",
    "E2": "Parcel {0} is gone: entry {1} took it out. Look at the register again.",
    "E3": "The path does not fit: it has to begin and end in two different corners, of the parcel or of the border.",
    "E4": "The two parcels have no edge in common.",
    "E5": "The common border of the two parcels is not one unbroken run.",
    "E6": "New parcel {0} would not be simple: the path crosses itself, touches the border, or leaves the parcel.",
    "E7": "No parcel has the edge between the first two corners.",
    "E8": "The new corner does not lie exactly on the edge, between its ends.",
    "E9": "The journal is full.",
    "E10": "The register would have too many parcels, or too many corners.",
    "E11": "No parcel has this corner.",
    "E12": "Parcel {0} bends at this corner, so that it can't be taken out.",
    "no memory": "Memory ran out. The same edit may be taken later.",
}
"""What a refusal of an edit means; {0} and {1} are the first words behind its code."""


def words_of(fault: RefusedEdit) -> str:
    """A refusal of an edit in words."""
    text = _WORDS.get(fault.code, "The edit does not fit.")
    numbers = [*fault.text.split(), "", ""]
    return text.format(*numbers)


def parcel_of(fault: RefusedEdit) -> Optional[int]:
    """The parcel that a refusal names; None where it names none."""
    names_one = fault.code in ("E1", "E2", "E12") and fault.text.split()[:1] not in ([], ["0"])
    return int(fault.text.split()[0]) if names_one else None


def as_json(status: int, code: str, text: str, **more: Any) -> Dict[str, Any]:
    """The body of an answer that is no success; `description` is what OGC API Features calls the text."""
    return {"code": code, "description": text, "status": status, **more}
