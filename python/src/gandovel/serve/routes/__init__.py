"""Which address answers what: a router for each theme."""
