"""A register of any size that is edited: a metropolis, cut into districts that each have a session of their own.

`cut` writes the folder, `state` reads and tests it, `office` answers and edits over all districts, `recut` moves a
parcel from one district to another, `server` serves it. docs/metropolis.md says what users see.
"""
