"""Helpers of the gate: its costs, the planted bugs, the tables of the map, measurements."""
