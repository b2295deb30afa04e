"""Layers of a GIS, read, tested and prepared: from paths and frames to rings of whole millimetres."""
