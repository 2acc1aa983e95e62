"""What the scripts of bench/ share: their arguments, their errors and statuses, the commands that they need, and the
program that they run."""
import argparse
import os
import shutil
import subprocess
import sys

TOP = os.path.dirname(os.path.dirname(os.path.dirname(os.path.realpath(__file__))))
BUILT = os.path.join(TOP, "crates/replay_program/out/replay_program")


class Fault(Exception):
    """An error: the script prints it in one line on standard error, after its own name, and ends with its status."""

    def __init__(self, said, status=1):
        super().__init__(said)
        self.status = status


class Usage(Exception):
    """Wrong arguments of a script that parses them itself: the script prints its usage and ends with status 3."""


def parser(name, text):
    """An argparse parser whose help begins with the text, in the text's own lines. A wrong argument is status 2."""
    return argparse.ArgumentParser(prog=name, description=text.strip("\n"), allow_abbrev=False,
                                   formatter_class=argparse.RawDescriptionHelpFormatter)


def end(name, main):
    """Ends with the status that main returns, None being 0, or with the status of its fault."""
    try:
        sys.exit(main())
    except Fault as fault:
        if str(fault):
            print(f"{name}: {fault}", file=sys.stderr)
        sys.exit(fault.status)
    except KeyboardInterrupt:
        sys.exit(130)


def run(name, main, text):
    """The same for bench/run, which parses its arguments itself and stays as it is."""
    words = sys.argv[1:]
    if words in (["-h"], ["--help"]):
        print(text.strip("\n"))
        sys.exit(0)
    try:
        end(name, lambda: main(words))
    except Usage as usage:
        print(f"usage: {usage}", file=sys.stderr)
        sys.exit(3)


def need(**commands):
    """Ends if one of these commands is missing; each has the error that it then prints."""
    for command, error in commands.items():
        if not shutil.which(command):
            raise Fault(error, 127)


def whole_number(least, most=None):
    """A kind of argument: a whole number from `least` on."""
    def number(text):
        if not (text.isascii() and text.isdigit() and least <= int(text) <= (int(text) if most is None else most)):
            until = "" if most is None else f" to {most:,}"
            raise argparse.ArgumentTypeError(f"takes a whole number from {least}{until}, not '{text}'")
        return int(text)
    return number


def add_program(arguments):
    """Adds the argument PROGRAM to a parser."""
    arguments.add_argument("program", nargs="?", metavar="PROGRAM",
                           help="the program to run; without it ./kubelet_replay builds one")


def program_of(words):
    """The path of the program that the words name, or without one the path of the program that ./kubelet_replay
    builds."""
    if not words:
        with open(os.path.join(TOP, "examples/first_tick.trace"), "rb") as trace:
            done = subprocess.run([os.path.join(TOP, "kubelet_replay")], stdin=trace, stdout=subprocess.DEVNULL,
                                  check=False)
        if done.returncode != 0:
            raise Fault("")  # it has printed why
        return os.path.realpath(BUILT)
    if not os.access(words[0], os.X_OK):
        raise Fault(f"there is no program {words[0]}", 2)
    return os.path.realpath(words[0])


def program_in(given):
    """The path of the program among parsed arguments, or of the one that ./kubelet_replay builds."""
    return program_of([given.program] if given.program else [])


def write(path, text):
    """Writes a file under another name first, so that a run that is stopped leaves no half of it."""
    part = path + ".part"
    with open(part, "w", encoding="utf-8") as file:
        file.write(text)
    os.replace(part, path)


def output_of(words):
    """What a command writes on standard output."""
    return subprocess.run(words, stdin=subprocess.DEVNULL, stdout=subprocess.PIPE, text=True, check=False).stdout


def run_shell(path, *words):
    """The status of a shell script of bench/lib."""
    return subprocess.run(["bash", os.path.join(TOP, "bench/lib", path), *words], stdin=subprocess.DEVNULL,
                          check=False).returncode
