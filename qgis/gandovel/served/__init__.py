"""A running register (`gandovel serve`) in QGIS: its parcels as a layer, and edits that are drawn in the map."""
