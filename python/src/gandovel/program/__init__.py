"""The proved program `parcel_tool`: its files, its limits, its commands and what it answers."""
