"""Runs kubectl replay with a stand-in for each tool, which shows the tool's name, the values of its arguments as
arguments in brackets, and how the first line of its standard input begins."""

import os
import sys

sys.path.insert(0, os.path.dirname(os.path.dirname(os.path.dirname(os.path.realpath(__file__)))))
from replay_tools import entry, tree
from replay_tools.cli.definition import COMMANDS
from replay_tools.cli.parsing import parser_of

# the plugin has dealt with them
OF_PLUGIN = ("files", "namespace", "is_everywhere", "kubectl")


def arguments_of(command, found):
    """The values that no default has, as arguments."""
    if isinstance(found, list):
        return found
    own = command.options_of(found.subcommand)
    defaults = vars(parser_of(own, True).parse_args([]))
    taken = [found.subcommand] if found.subcommand else []
    for option in {option.destination: option for option in own}.values():
        value = getattr(found, option.destination)
        if value != defaults[option.destination] and (option.destination not in OF_PLUGIN or not command.takes_file):
            for each in value if isinstance(value, list) else [value]:
                name = [] if option.is_of_kubectl else [option.names[-1]]
                taken += name if value is True else [*name, str(each)]
    path = [found.path] if "path" in found else []
    return taken + path + ([] if "path" in found else getattr(found, "named", []))


def show(name, found):
    line = "" if os.isatty(0) else sys.stdin.readline().rstrip("\n")
    words = arguments_of(COMMANDS[name], found)
    sys.stdout.write(name + "".join(f" [{word}]" for word in words) + f" < {line[:24]}\n")
    return 0


tree.work = show
words, name = sys.argv[1:], "kubectl-replay"
sys.exit(entry.run(name, lambda: tree.run(name, words)))
