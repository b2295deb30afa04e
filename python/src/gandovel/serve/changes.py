"""Published entries as server-sent events."""
from __future__ import annotations

import json
from typing import AsyncIterator

from .register import Register

BEAT = 15.0
"""Seconds until a comment says that the connection still holds."""
AT_ONCE = 200
"""Entries that are sent in one piece to a client that is behind."""


async def told_as_events(register: Register, after: int) -> AsyncIterator[bytes]:
    """Each entry behind number `after`, in order, as it is published; its number is the event's id.

    A client that reads slowly is behind by what it has not read, and holds up nobody. It ends with the register.
    """
    yield b"retry: 1000\n\n"
    while register.state != "closed":
        if await register.news(after, BEAT):
            found = register.entries[after : after + AT_ONCE]
            after = found[-1].number
            yield b"".join(
                b"id: %d\nevent: entry\ndata: %s\n\n" % (it.number, json.dumps(it.as_json()).encode()) for it in found
            )
        else:
            yield b": %d\n\n" % len(register.entries)
