"""How much of the server each client has: requests a second, requests under way, streams, and bytes that it has not
read."""
from __future__ import annotations

import time
from typing import Any, Dict, Set, Tuple

MOST_NAMES = 10_000
"""How many clients' rates are known at once."""
MOST_UNSENT = 32 << 20
"""Bytes that one client may leave unread before it is asked to read them; eight times as many of all clients."""
ALL = 8
LEAST_UNSENT = 1 << 16
"""Bytes from which on what a connection has not read is looked at."""


class Rates:
    """Requests a second of each client: so many at once, and as many again in each second."""

    def __init__(self, each: float) -> None:
        self._each = each
        self._left: Dict[str, Tuple[float, float]] = {}

    def takes(self, name: str) -> bool:
        """Whether one more of this client's is taken now."""
        if not self._each:
            return True
        now = time.monotonic()
        left, then = self._left.get(name, (self._each, now))
        left = min(self._each, left + (now - then) * self._each)
        if name not in self._left and len(self._left) >= MOST_NAMES:
            self._left.clear()
        self._left[name] = (left - 1 if left >= 1 else left), now
        return left >= 1


class Shares:
    """How much of the server each client has: requests under way, and streams among them."""

    def __init__(self, clients: int) -> None:
        self._most = max(1, clients // 2), max(1, clients // 8)
        self._counts: Tuple[Dict[str, int], Dict[str, int]] = ({}, {})

    def begin(self, name: str, is_stream: bool) -> bool:
        """Whether one more of this client's is taken; `end` it then."""
        counts, most = self._counts[is_stream], self._most[is_stream]
        count = counts.get(name, 0)
        if count < most:
            counts[name] = count + 1
        return count < most

    def end(self, name: str, is_stream: bool) -> None:
        """One of this client's has ended."""
        counts = self._counts[is_stream]
        counts[name] -= 1
        if not counts[name]:
            del counts[name]


class Unsent:
    """What clients were sent and have not read, by connection: only those that read slowly are known."""

    def __init__(self) -> None:
        self._slow: Dict[str, Set[Any]] = {}

    def note(self, name: str, connection: Any) -> None:
        """A client was sent something by this connection."""
        if _unread(connection) >= LEAST_UNSENT:
            self._slow.setdefault(name, set()).add(connection)

    def takes(self, name: str) -> bool:
        """Whether another answer may be made for this client now."""
        if not self._slow:
            return True
        sums: Dict[str, int] = {}
        for other, connections in list(self._slow.items()):
            sizes = {it: _unread(it) for it in connections}
            self._slow[other] = {it for it, size in sizes.items() if size}
            sums[other] = sum(sizes.values())
            if not self._slow[other]:
                del self._slow[other]
        mine = sums.get(name, 0)
        return mine < MOST_UNSENT and (sum(sums.values()) < ALL * MOST_UNSENT or not mine)


def _unread(connection: Any) -> int:
    transport = connection.transport
    return 0 if transport.is_closing() else int(transport.get_write_buffer_size())
