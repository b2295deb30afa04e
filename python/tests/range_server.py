"""A server of a folder's files, with ranges, as GDAL asks for: `range_server.py FOLDER` prints its port first.

It is a process of its own, since GDAL keeps Python's lock while it waits for an answer.
"""
from __future__ import annotations

import functools
import http.server
import re
import sys
from pathlib import Path


class Ranges(http.server.SimpleHTTPRequestHandler):
    """Files, whole or in part."""

    def do_GET(self):
        """A range of a file; anything else as it comes."""
        path = Path(self.translate_path(self.path))
        found = re.fullmatch(r"bytes=(\d+)-(\d*)", self.headers.get("Range", ""))
        if not found or not path.is_file():
            super().do_GET()
            return
        content = path.read_bytes()
        part = content[int(found[1]) : int(found[2] or len(content)) + 1]
        self.send_response(206 if part else 416)
        self.send_header("Content-Range", f"bytes {found[1]}-{int(found[1]) + len(part) - 1}/{len(content)}")
        self.send_header("Content-Length", str(len(part)))
        self.end_headers()
        self.wfile.write(part)


if __name__ == "__main__":
    handler = functools.partial(Ranges, directory=sys.argv[1])
    with http.server.ThreadingHTTPServer(("127.0.0.1", 0), handler) as server:
        print(server.server_address[1], flush=True)
        server.serve_forever()
