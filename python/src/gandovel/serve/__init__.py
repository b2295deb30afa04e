"""A register on the web: `gandovel serve` speaks HTTP for a session of the proved program. `docs/serve.md` tells it."""
