"""The work of the tools: a module for each, which takes the values of a command's arguments."""
