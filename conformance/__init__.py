"""Layers whose answers are known exactly, for any program."""
