"""What is written for others: reports, GeoPackages, maps, exports, JSON and CSV."""
