"""Builds the two small programs that ask JTS and QGIS."""

from __future__ import annotations

import subprocess
from pathlib import Path

HERE = Path(__file__).resolve().parent
PACKAGES = "libjts-java default-jdk-headless libqgis-dev g++ grass-core postgresql-15-postgis-3 python3-geopandas"
HEADERS_OF_QGIS, HEADERS_OF_QT = Path("/usr/include/qgis"), Path("/usr/include/x86_64-linux-gnu/qt5")
MODULES = ("", "QtCore", "QtGui", "QtXml", "QtWidgets", "QtNetwork")
LIBRARIES = ("qgis_core", "qgis_analysis", "Qt5Core", "Qt5Gui", "Qt5Xml")


def build(folder: Path) -> None:
    """Puts `JtsFaults.class` and `qgis_checker` into a folder, by Debian's packages."""
    jar = "/usr/share/java/jts-core.jar"
    subprocess.run(["javac", "-cp", jar, "-d", str(folder), str(HERE / "JtsFaults.java")], check=True)
    # Debian's headers name some of their own by folders of QGIS's sources, which the package does not have.
    (folder / "include").mkdir()
    (folder / "include/geometry").symlink_to(HEADERS_OF_QGIS)
    headers = [folder / "include", HEADERS_OF_QGIS, *(HEADERS_OF_QT / it for it in MODULES)]
    words = ["g++", "-O1", "-fPIC", "-std=c++17", *(f"-I{it}" for it in headers), "-o", str(folder / "qgis_checker")]
    subprocess.run([*words, str(HERE / "qgis_checker.cpp"), *(f"-l{it}" for it in LIBRARIES)], check=True)
