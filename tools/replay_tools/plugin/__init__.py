"""The tools as a plugin of kubectl: its arguments, its files, its completion."""
