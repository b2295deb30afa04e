"""Geometry in whole millimetres, exact: noding, holes, big rings, the city's outline."""
