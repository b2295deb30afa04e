"""Gandovel beside other programs, on registers whose faults are known. `python3 -m compare` in benches/ runs it."""
