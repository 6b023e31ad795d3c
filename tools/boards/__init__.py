"""Boards: their folders, made and shown, and what the program says of them."""
