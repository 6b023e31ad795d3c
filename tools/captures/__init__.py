"""Captures of packets: a trace as one, and scripts from one."""
