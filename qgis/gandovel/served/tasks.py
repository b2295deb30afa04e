"""What takes a while: loading all parcels of a register, and posting edits, in threads of their own."""
from __future__ import annotations

import time
from dataclasses import dataclass, field, replace
from typing import Any, Callable, Dict, List, Sequence

from qgis.core import QgsTask

from ..words import tr
from .client import Answer, Client, Unreachable
from .drafts import Draft, Rings, after, kind_text
from .parcels import Parcel, parcel_of

PAGE = 1000
TRIES, WAIT = 5, 1.0
"""How often an edit is asked for whose answer was lost, and the seconds between two times."""


@dataclass
class Loaded:
    """A register as it was read: its settings, and all parcels of that version; or why there is none."""

    settings: Dict[str, Any] = field(default_factory=dict)
    parcels: List[Parcel] = field(default_factory=list)
    amiss: str = ""


class LoadTask(QgsTask):
    """Reads a register, page by page, of one version. `done` gets it in the main thread."""

    def __init__(self, client: Client, done: Callable[[Loaded], None]) -> None:
        super().__init__(tr("Gandovel: reading the register"), QgsTask.Flag.CanCancel)
        self.client, self.done, self.loaded = client, done, Loaded()

    def run(self) -> bool:
        """Reads all pages."""
        try:
            settings = self.client.told("/settings")
            more, count = f"/parcels?limit={PAGE}", max(1, int(settings.get("parcels", 1)))
            while more and not self.isCanceled():
                page = self.client.told(more)
                settings["entries"] = page["entries"]
                self.loaded.parcels += [parcel_of(told) for told in page["parcels"]]
                self.setProgress(min(100.0, 100.0 * len(self.loaded.parcels) / count))
                more = page["next"]
            self.loaded.settings = settings
            self.loaded.amiss = tr("Cancelled.") if self.isCanceled() else ""
        except Unreachable as fault:
            self.loaded.amiss = str(fault)
        except (KeyError, TypeError, ValueError) as fault:
            text = "The address {address} is no register of gandovel serve ({reason})."
            self.loaded.amiss = tr(text, address=self.client.address, reason=f"{type(fault).__name__}: {fault}")
        return True

    def finished(self, result: bool) -> None:
        """Hands it on, in the main thread."""
        self.done(self.loaded)


@dataclass
class Posted:
    """What came of edits: the entries that were made, the edits that were not, and why the first of them was not."""

    made: List[Dict[str, Any]] = field(default_factory=list)
    left: List[Draft] = field(default_factory=list)
    refused: str = ""


class PostTask(QgsTask):
    """Posts edits one after the other, up to the first that is refused. Each has a key, by which it is made once."""

    def __init__(
        self, client: Client, drafts: Sequence[Draft], rings: Rings, done: Callable[[Posted], None], asks: bool = False
    ) -> None:
        """With `asks` they are kept as drafts of the register, which another clerk approves, in place of made."""
        super().__init__(tr("Gandovel: posting edits"), QgsTask.Flag.CanCancel)
        self.client, self.drafts, self.rings, self.done, self.asks = client, list(drafts), rings, done, asks
        self.posted = Posted(left=list(drafts))

    def run(self) -> bool:
        """Posts them."""
        try:
            for at, draft in enumerate(self.drafts):
                rings = after(self.rings, self.drafts[:at])
                answer = self._sent(draft, rings)
                if answer.status != 200:
                    text = "{kind} was refused ({reason})."
                    self.posted.refused = tr(text, kind=kind_text(draft.kind), reason=answer.reason)
                    break
                self.posted.made.append(answer.body)
                self.posted.left = self.drafts[at + 1 :]
                self.setProgress(100.0 * (at + 1) / len(self.drafts))
        except Unreachable as fault:
            text = "{reason} Post again: an edit that was made is not made twice."
            self.posted.refused = tr(text, reason=str(fault))
        return True

    def _sent(self, draft: Draft, rings: Rings) -> Answer:
        """The answer to an edit. A lost one is asked for again; one for an older version again, where nothing that
        came since concerns it."""
        if self.asks:
            return self.client.ask("/drafts", draft.body(rings))
        made = [int(entry["number"]) for entry in self.posted.made]
        at, answer = max([draft.at, *made]), Answer(503, {})
        for attempt in range(TRIES):
            headers = {"If-Match": str(at), "Idempotency-Key": draft.key}
            try:
                answer = self.client.ask("/edits", draft.body(rings), headers)
            except Unreachable:
                if attempt == TRIES - 1:
                    raise
                answer = Answer(503, {})
            if answer.status == 412 and self._is_fresh(draft, rings, at, made):
                at = int(answer.body["entries"])
            elif answer.status == 503:
                time.sleep(WAIT)
            else:
                return answer
        return answer

    def _is_fresh(self, draft: Draft, rings: Rings, at: int, made: Sequence[int]) -> bool:
        """Whether nothing of others that came since concerns a draft."""
        told = self.client.told(f"/entries?after={at}&limit=1000")
        records = [entry for entry in told["records"] if int(entry["number"]) not in made]
        complete = len(told["records"]) == int(told["entries"]) - at
        return complete and not any(draft.is_concerned(entry, rings) for entry in records)

    def finished(self, result: bool) -> None:
        """Hands it on, in the main thread."""
        self.done(self.posted)


def seen_by(drafts: Sequence[Draft], entry: Dict[str, Any], rings: Rings) -> List[Draft]:
    """Drafts after an entry came in: those that it does not concern are of the newest version then."""
    number = int(entry["number"])
    return [
        replace(draft, at=number) if draft.at == number - 1 and not draft.is_concerned(entry, rings) else draft
        for draft in drafts
    ]
