"""What the tools next to the program are made of. Their entries are in the folder above, and Python finds it there."""
