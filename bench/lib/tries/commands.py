"""Runs the program with its arguments, and compares its output, its status and its line on standard error: `run`,
`check` and `play` over each trace of examples/, wrong arguments and files, the help and the version.
"""
import script


def add_to(arguments):
    script.add_program(arguments)


def main(given):
    return script.run_shell("tries/commands.sh", script.program_in(given))
