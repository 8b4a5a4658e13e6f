"""Runs that may be killed at any time, and what must be found after them."""
