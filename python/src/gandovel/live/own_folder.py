"""A folder of a session's own, which a forked child leaves to the process that made it."""
from __future__ import annotations

import os
import shutil
import tempfile
import weakref


class OwnFolder:
    """A new folder with the path `name`. It goes by `cleanup`, or where the process that made it ends.

    `tempfile.TemporaryDirectory` goes, too, where a forked child ends in the usual way: with the pipes that its parent
    has open there.
    """

    def __init__(self) -> None:
        self.name = tempfile.mkdtemp(prefix="gandovel-")
        self._ended = weakref.finalize(self, _remove, self.name, os.getpid())

    def cleanup(self) -> None:
        """Removes the folder with all that is in it, in the process that made it. A second call does nothing."""
        self._ended()


def _remove(name: str, owner: int) -> None:
    if os.getpid() == owner:
        shutil.rmtree(name, ignore_errors=True)
