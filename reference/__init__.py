"""The definitions read a second time: what a layer, a tiling, an edit and an overlay are, in exact fractions.

This package was written from the public standards and from the words of the documents, and not from the program: the
ESRI Shapefile Technical Description (July 1998) for the files, OGC 06-103r4 for rings, boundaries and interiors, IEEE
754 for doubles. It is slow and short on purpose. `python3 -m reference` draws layers, damages, edits and points, asks
the built program, and compares each answer. So whoever doubts a definition can run it.
"""
