"""Readers and writers of the formats, written apart from the crates."""
