"""The arguments of `record`: what they mean, and what is wrong with them."""

from __future__ import annotations

import json
import os
import re
import shlex
import shutil
from dataclasses import dataclass
from typing import Any, Optional

from replay_tools.cli.definition import RECORD

from . import lines
from .alone import ALONE
from .folder import may_be_made
from .formats import MOST_TICKS, name_fault
from .logs import MOST_LINES
from .metrics import fault_of
from .sources import KUBECTL

# the options with numbers, and the greatest number of each
NUMBERS = {"--every": 86400, "--look": 3600, "--ticks": MOST_TICKS, "--for": 31622400, "--logs": MOST_LINES}
LASTING = ("--each", "--keep", "--most", "--ship")
# the options of the specification: with a value, and without one. The value of --crictl or --ship may begin with --,
# which argparse takes for an option, so split() reads them
TEXTS = [name for option in RECORD.options if option.value for name in option.names]
SWITCHES = [name for option in RECORD.options if not option.value for name in option.names]
MOST_PAUSE = 2 ** 31 - 1
UNITS = {"s": 1, "m": 60, "h": 3600, "d": 86400}
SIZES = {"": 1, "k": 10 ** 3, "M": 10 ** 6, "G": 10 ** 9, "T": 10 ** 12, "Ki": 2 ** 10, "Mi": 2 ** 20, "Gi": 2 ** 30,
         "Ti": 2 ** 40}
LONGEST = 400 * 86400


class BadWord(Exception):
    """Arguments that are mistaken; its text shows what to do."""


@dataclass(frozen=True)
class Into:
    """Where traces follow one another, for how many seconds each, how many seconds and bytes are kept, and the words of
    the command that takes them away, if there is one."""
    folder: str
    each: int
    keep: int
    most: int
    ship: tuple = ()


@dataclass(frozen=True)
class Words:
    """What the operator asked for; moments and periods in seconds."""
    node: str
    kubelet: Optional[str]
    curl_file: Optional[str]
    node_line: Optional[dict]
    every: int
    look: int
    ticks: int
    duration: Optional[int]
    format: lines.Format
    is_check: bool
    into: Optional[Into]
    crictl: tuple
    log_lines: int
    metrics: Optional[str]
    events: Optional[str]
    throttled: bool


def split(arguments: list[str]) -> dict[str, Any]:
    """The values of options, {option: text or True}."""
    given: dict[str, Any] = {}
    rest = list(arguments)
    while rest:
        word = rest.pop(0)
        if word in SWITCHES:
            given[word] = True
        elif word not in TEXTS:
            from replay_tools import nearest
            raise BadWord(f"{word} is no known argument{nearest.option_words(word, [*SWITCHES, *TEXTS])}")
        elif not rest:
            raise BadWord(f"{word} needs a value")
        else:
            given[word] = rest.pop(0)
    return given


def number(given: dict[str, Any], word: str) -> int | None:
    text = given.get(word)
    if text is None:
        return None
    if not re.fullmatch("[1-9][0-9]{0,7}", text) or int(text) > NUMBERS[word]:
        what = "number" if word in ("--ticks", "--logs") else "number of seconds"
        raise BadWord(f"{word} takes a whole {what} from 1 to {NUMBERS[word]}, not '{text}'")
    return int(text)


def trace_format(given: dict[str, Any]) -> lines.Format:
    """The format that the arguments ask for. Raises BadWord if they ask for two."""
    text, is_simulated = given.get("--eviction-pause"), "--simulate" in given
    if "--standard" in given and "--extended" in given:
        raise BadWord("--standard and --extended are two formats: give one")
    if "--standard" in given and "--into" in given:
        raise BadWord("--into writes the extended format, and not the standard one")
    is_extended = ({"--extended", "--into"} & set(given)
                   or ("--standard" not in given and lines.DEFAULT.says_gone))
    alone = [word for word in ("--eviction-pause", "--simulate") if word in given]
    if alone and not is_extended:
        raise BadWord(f"{alone[0]} goes with --extended")
    if text is None:
        return lines.extended(is_simulated=is_simulated) if is_extended else lines.STANDARD
    if not re.fullmatch("0|[1-9][0-9]{0,9}", text) or int(text) > MOST_PAUSE:
        raise BadWord(f"--eviction-pause takes a whole number of seconds from 0 to {MOST_PAUSE}, not '{text}'")
    return lines.extended(int(text), is_simulated)


def node_line(given: dict[str, Any]) -> dict[str, Any] | None:
    """The operator's own node line, or None."""
    path = given.get("--node-line")
    if path is None:
        return None
    try:
        with open(path, encoding="utf-8") as file:
            fields = json.load(file)
    except OSError:
        raise BadWord(f"--node-line: '{path}' can't be read") from None
    except ValueError:
        fields = None
    if not isinstance(fields, dict):
        raise BadWord(f"--node-line: '{path}' has no JSON object, or more than one")
    return fields


def duration(given: dict[str, Any], word: str, default: str) -> int:
    """A span of time, in seconds."""
    found = re.fullmatch("([1-9][0-9]{0,8})([smhd])", given.get(word, default))
    seconds = int(found[1]) * UNITS[found[2]] if found else 0
    if not 10 <= seconds <= LONGEST:
        raise BadWord(f"{word} takes a time from 10s to {LONGEST // 86400}d, as {default}, not '{given[word]}'")
    return seconds


def size(given: dict[str, Any], word: str, default: str) -> int:
    """A number of bytes."""
    found = re.fullmatch("([1-9][0-9]{0,14})([kMGT]|[KMGT]i|)", given.get(word, default))
    count = int(found[1]) * SIZES[found[2]] if found else 0
    if not 2 ** 20 <= count < 2 ** 60:
        raise BadWord(f"{word} takes a number of bytes of at least 1Mi, as {default}, not '{given[word]}'")
    return count


def into(given: dict[str, Any], node: str) -> Into | None:
    """Where and how traces follow one another, or None if they don't."""
    alone = [word for word in LASTING if word in given]
    if "--into" not in given:
        if alone:
            raise BadWord(f"{alone[0]} goes with --into")
        return None
    folder = given["--into"]
    if not os.path.isdir(folder) and not may_be_made(folder):
        raise BadWord(f"--into: '{folder}' is no folder")
    if name_fault(node) is not None:
        raise BadWord(f"--into needs --node with a name of the formats, not '{node}'")
    return Into(folder, duration(given, "--each", "1h"), duration(given, "--keep", "48h"),
                size(given, "--most", "2Gi"), command(given, "--ship", "", "rclone copy {} far:traces"))


def command(given: dict[str, Any], word: str, default: str, example: str) -> tuple[str, ...]:
    """The words of a command, as a shell splits them."""
    try:
        words = shlex.split(given.get(word, default))
    except ValueError:
        words = []
    if not words and word in given:
        raise BadWord(f"{word} takes words as '{example}', not '{given[word]}'")
    return tuple(words)


def metrics_file(given: dict[str, Any]) -> str | None:
    path = given.get("--metrics")
    fault = None if path is None else fault_of(path)
    if fault is not None:
        raise BadWord(f"--metrics: {fault}")
    return path


def events_api(given: dict[str, Any]) -> str | None:
    api = given.get("--events")
    if api is not None and api != KUBECTL and not re.fullmatch("https://[^/ ]+/?", api):
        raise BadWord(f"--events takes a URL as https://kubernetes.default.svc, or kubectl, not '{api}'")
    return api


def asks_throttled(given: dict[str, Any], kubelet: str | None) -> bool:
    """Whether the kubelet is asked for how long processors were throttled."""
    word = given.get("--throttled")
    if word not in (None, "yes", "no"):
        raise BadWord(f"--throttled takes yes or no, not '{word}'")
    return kubelet != ALONE and (kubelet is not None if word is None else word == "yes")


def words_of(arguments: list[str]) -> Words:
    """What the arguments ask for; BadWord where they are mistaken."""
    given = split(arguments)
    node, curl_file = given.get("--node", os.uname().nodename), given.get("--curl")
    if not re.fullmatch("[a-z0-9.-]+", node):
        raise BadWord(f"--node takes a node's name, not '{node}'")
    if curl_file is not None and "--kubelet" not in given:
        raise BadWord("--curl goes with --kubelet")
    if curl_file is not None and not os.access(curl_file, os.R_OK):
        raise BadWord(f"--curl: '{curl_file}' can't be read")
    kubelet = given.get("--kubelet")
    if kubelet is not None and kubelet != ALONE and not re.fullmatch("https?://[^/ ]+/?", kubelet):
        raise BadWord(f"--kubelet takes a URL as https://127.0.0.1:10250, or none, not '{kubelet}'")
    return Words(node, kubelet.rstrip("/") if kubelet else None, curl_file, node_line(given),
                 number(given, "--every") or 10, number(given, "--look") or 1, number(given, "--ticks") or MOST_TICKS,
                 number(given, "--for"), trace_format(given), "--check" in given, into(given, node),
                 command(given, "--crictl", "crictl", "chroot /host crictl"), number(given, "--logs") or 0,
                 metrics_file(given), events_api(given), asks_throttled(given, kubelet))


def missing_commands(commands: list[str]) -> list[str]:
    return [command for command in commands if shutil.which(command) is None]
