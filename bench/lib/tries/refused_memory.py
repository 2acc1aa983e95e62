"""Runs the program with the Nth growth of memory failing, for N = 1, 2, .. until no run has so many growths: over the
traces of examples/ and a faulty one by standard input; with each of its commands over a crash loop, an eviction with a
reclaim, pods that arrive late, and one that goes and comes again; and with wrong arguments and a wrong steps file.
Each run has to answer "out of memory" with status 1 and nothing on standard output, or all that it answers with ample
memory; if its line has no memory either, the status stays.

Then it runs `case_runner calls` in the same way. Each run of that has to end with status 1 and nothing on
standard output, or to report of each call of the library that it was done, or that it failed and left what it has to
leave. Each call has to fail in some run.
"""
import os

import script


def add_to(arguments):
    script.add_program(arguments)
    arguments.add_argument("calls", nargs="?", metavar="CALLS",
                           help="the program case_runner; without it the one that is built next to PROGRAM")


def main(given):
    script.need(cc="a C compiler (cc) is missing; it builds the allocator that fails")
    program = script.program_in(given)
    calls = given.calls or os.path.join(os.path.dirname(os.path.dirname(os.path.dirname(program))),
                                        "case_runner/out/case_runner")
    return script.run_shell("tries/refused_memory.sh", program, script.program_of([calls]))
