"""The details of the manual pages, a module for each command; its short help is with the command."""
