"""The front doors of bench/ with several parts: bench/measure and bench/try start the part that their first argument
names. A part is a module with its help as its doc string, `add_to` for its arguments, and `main`."""
import argparse
import importlib

import script


def parser(name, text, parts, shape):
    """The parser of a front door; its help lists the parts, each with what it does."""
    width = max(map(len, parts)) + 3
    listed = "\n".join(f"  {part:{width}}{does}" for part, does in parts.items())
    arguments = script.parser(name, text)
    arguments.usage = f"{name} {shape}"
    arguments.epilog = f"The names:\n{listed}"
    arguments.add_argument("words", nargs=argparse.REMAINDER, help=argparse.SUPPRESS)
    return arguments


def start(name, package, part, words):
    """Runs a part with these arguments. Returns its status, None being 0."""
    module = importlib.import_module(f"{package}.{part}")
    arguments = script.parser(f"{name} {part}", module.__doc__)
    module.add_to(arguments)
    return module.main(arguments.parse_args(words))
