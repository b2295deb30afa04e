"""Gaps and overlaps as polygons, and slivers closed."""
