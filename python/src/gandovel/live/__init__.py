"""Running sessions of the proved program, their desks, and the journals that they write."""
