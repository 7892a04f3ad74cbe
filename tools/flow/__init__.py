"""What the scripts share: sessions, the program, and its answers."""
