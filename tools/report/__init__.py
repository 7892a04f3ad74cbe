"""Writes what the program tells of a session as one page, in a file of its own."""
