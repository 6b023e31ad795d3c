"""Tests of the tools, and of the built program over boards that they make."""
