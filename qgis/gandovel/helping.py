"""The page of the plugin, opened at a heading."""
from __future__ import annotations

from configparser import ConfigParser
from pathlib import Path

from qgis.PyQt.QtCore import QUrl
from qgis.PyQt.QtGui import QDesktopServices

METADATA = Path(__file__).with_name("metadata.txt")
PAGE = "docs/qgis.md"


def help_url(heading: str = "") -> str:
    """Where the page is: beside the plugin where it was brought along, else in the repository that metadata names."""
    own = METADATA.with_name("help.md")
    if own.is_file():
        return QUrl.fromLocalFile(str(own)).toString() + (f"#{heading}" if heading else "")
    parser = ConfigParser()
    parser.read(METADATA, encoding="utf-8")
    home = parser.get("general", "repository", fallback="").rstrip("/")
    return f"{home}/{PAGE}" + (f"#{heading}" if heading else "")


def show_help(heading: str = "") -> None:
    """Opens the page."""
    QDesktopServices.openUrl(QUrl(help_url(heading)))
