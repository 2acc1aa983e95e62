"""The command line: definition.py is its specification, and help, parser, completion, manual pages and the table of
tools/README.md are made from it."""
