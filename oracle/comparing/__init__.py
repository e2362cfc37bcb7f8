"""Feeds two speakers of the protocol the same cases and compares every number."""
