"""Reads the causes that the program's command `causes` prints (docs/why.md), each line as a value, and writes a value
as its line again. A line of an unknown kind, with other keys or with a value of another form is a fault."""

from __future__ import annotations

import re
from collections.abc import Callable
from dataclasses import dataclass, fields
from typing import Annotated, Any, Literal, NamedTuple, Optional, Union, get_args, get_origin, get_type_hints

from replay_tools import outside

NOTHING = "-"


class CausesFault(Exception):
    """The text is not what `causes` prints; the message shows which line is wrong."""


# --- the forms of values ---


@dataclass(frozen=True)
class Form:
    """How the values of a key are written, and how a text is read and a value written."""

    pattern: str
    read: Callable[[str], Any]
    write: Callable[[Any], str] = str


def amount_of(text: str) -> int:
    """The thousandths of a unit of an amount."""
    return int(text[:-1]) if text.endswith("m") else 1000 * int(text)


def amount_text(thousandths: int) -> str:
    return f"{thousandths}m" if thousandths % 1000 else str(thousandths // 1000)


def percentage_of(text: str) -> int:
    """The hundredths of a percent of a percentage."""
    whole, _, part = text[:-1].partition(".")
    return 100 * int(whole) + int(part or 0)


def percentage_text(hundredths: int) -> str:
    whole, part = divmod(hundredths, 100)
    return f"{whole}.{part:02d}%" if part else f"{whole}%"


def moments_of(text: str) -> tuple[int, ...]:
    return tuple(map(int, text.split(",")))


def list_text(values: tuple[Any, ...]) -> str:
    return ",".join(map(str, values))


# the program writes no number of more digits, none with a 0 in front, and no whole units as thousandths
POSITIVE = "[1-9][0-9]{0,29}"
WHOLE, SIGNED = f"(?:0|{POSITIVE})", f"(?:0|-?{POSITIVE})"
THOUSANDTHS = f"(?![0-9]*000m){POSITIVE}m"
NAME = "[a-z0-9](?:[-.a-z0-9]{0,251}[a-z0-9])?"
LABEL = "[a-z0-9](?:[-a-z0-9]{0,61}[a-z0-9])?"

Number = Annotated[int, Form(WHOLE, int)]
Integer = Annotated[int, Form(SIGNED, int)]
Moments = Annotated[tuple[int, ...], Form(f"{WHOLE}(?:,{WHOLE})*", moments_of, list_text)]
Lacks = Annotated[tuple[str, ...], Form("start|(?:start,)?(?:startup|readiness|startup,readiness)",
                                        lambda text: tuple(text.split(",")), list_text)]
Amount = Annotated[int, Form(f"{WHOLE}|{THOUSANDTHS}", amount_of, amount_text)]
SignedAmount = Annotated[int, Form(f"{SIGNED}|-?{THOUSANDTHS}", amount_of, amount_text)]
Percentage = Annotated[int, Form(rf"{WHOLE}(?:\.(?!00)[0-9]{{2}})?%", percentage_of, percentage_text)]
Truth = Annotated[bool, Form("true|false", lambda text: text == "true", lambda value: "true" if value else "false")]
Label = Annotated[str, Form(LABEL, str)]
Key = Annotated[str, Form(f"{LABEL}/{NAME}", str)]
Signal = Annotated[str, Form("[a-z]+[.][A-Za-z]+", str)]
Reason = Annotated[str, Form("[A-Za-z][A-Za-z0-9_./-]{0,62}", str)]
Kind = Literal["hard", "soft"]
Probe = Literal["startup", "liveness", "readiness"]
Policy = Literal["Always", "OnFailure", "Never"]
Decider = Literal["sidecar", "rule", "container", "pod"]
CaseNumber = Literal["1", "2", "3", "4", "5"]


def form_of(hint: Any) -> Form:
    """The form of a field's type, of which None is written as a dash."""
    if get_origin(hint) is Union:
        form = form_of(next(each for each in get_args(hint) if each is not type(None)))
        return Form(f"{NOTHING}|{form.pattern}", lambda text: None if text == NOTHING else form.read(text),
                    lambda value: NOTHING if value is None else form.write(value))
    if get_origin(hint) is Literal:
        return Form("|".join(map(re.escape, get_args(hint))), str)
    return next(each for each in hint.__metadata__ if isinstance(each, Form))


# --- the kinds of lines ---


class Line(NamedTuple):
    """How the lines of a kind are written."""

    name: str
    keys: tuple[str, ...]
    forms: tuple[Form, ...]
    pattern: re.Pattern[str]


@dataclass(frozen=True)
class Cause:
    """One line. The name of a class is its kind, and the names of its fields are its keys: `InitFailed` is
    `init-failed`, `pod_period` is `pod-period`, and `for_` is `for`. Moments and spans are in seconds, amounts in
    thousandths of a unit, percentages in hundredths of a percent."""

    def line(self) -> str:
        """The line, without a newline."""
        found = line_of(type(self))
        pairs = (f" {key}={form.write(value)}" for key, form, value
                 in zip(found.keys, found.forms, self.__dict__.values()))
        return f"because {found.name}{''.join(pairs)}"


LINES: dict[type[Cause], Line] = {}


def line_of(kind: type[Cause]) -> Line:
    """How the lines of a kind are written. It is worked out once."""
    if kind not in LINES:
        LINES[kind] = made_line(kind)
    return LINES[kind]


def made_line(kind: type[Cause]) -> Line:
    hints = get_type_hints(kind, include_extras=True)
    names = [field.name for field in fields(kind)]
    keys, forms = [name.rstrip("_").replace("_", "-") for name in names], [form_of(hints[name]) for name in names]
    name = re.sub("(?<=.)(?=[A-Z])", "-", kind.__name__).lower()
    pairs = (f" {key}=({form.pattern})" for key, form in zip(keys, forms))
    return Line(name, tuple(keys), tuple(forms), re.compile(f"because {name}{''.join(pairs)}", re.ASCII))


# --- of a container ---


@dataclass(frozen=True)
class Unlisted(Cause):
    pod: Number
    attempt: Number
    instead: Optional[Number]
    before: Number
    state: Literal["created", "running", "unknown"]


@dataclass(frozen=True)
class Listed(Cause):
    pod: Number
    attempt: Number
    before: Optional[Number]
    was: Optional[Literal["nothing", "other", "created", "unknown"]]
    other: Optional[Number]


@dataclass(frozen=True)
class Exited(Cause):
    pod: Number
    attempt: Number
    code: Integer
    start: Optional[Number]
    run: Number


@dataclass(frozen=True)
class Success(Cause):
    pod: Number
    attempt: Number
    at: Number
    number: Number
    threshold: Number
    start: Number
    delay: Number


@dataclass(frozen=True)
class Failures(Cause):
    pod: Number
    attempt: Number
    probe: Probe
    threshold: Number
    at: Moments
    start: Number
    delay: Number
    passed: Optional[Number]


@dataclass(frozen=True)
class Up(Cause):
    pod: Number
    attempt: Number
    start: Number
    passed: Optional[Number]


@dataclass(frozen=True)
class Successes(Cause):
    pod: Number
    attempt: Number
    threshold: Number
    at: Moments
    start: Number
    delay: Number


@dataclass(frozen=True)
class Unprobed(Cause):
    pod: Number
    attempt: Number


@dataclass(frozen=True)
class WasReady(Cause):
    pod: Number
    attempt: Number
    start: Number


@dataclass(frozen=True)
class Left(Cause):
    pod: Number
    attempt: Number
    code: Integer
    listed: Truth


@dataclass(frozen=True)
class Newer(Cause):
    pod: Number
    attempt: Number
    state: Literal["created", "running", "exited", "unknown"]
    lacks: Lacks


@dataclass(frozen=True)
class Exit(Cause):
    pod: Number
    attempt: Number
    at: Number
    code: Integer


@dataclass(frozen=True)
class Wanted(Cause):
    pod: Number
    role: Literal["app", "init", "sidecar"]
    by: Decider
    policy: Policy
    rule: Optional[Number]


@dataclass(frozen=True)
class Delay(Cause):
    pod: Number
    number: Number
    first: Number
    since: Number
    why: Literal["first", "long"]
    doubled: Optional[Number]
    greatest: Optional[Number]
    set: Optional[Literal["node", "default"]]


@dataclass(frozen=True)
class Due(Cause):
    pod: Number
    at: Number
    before: Optional[Number]


@dataclass(frozen=True)
class Lives(Cause):
    pod: Number
    phase: Literal["Pending", "Running"]


# --- of a pod's phase ---


@dataclass(frozen=True)
class Case(Cause):
    pod: Number
    now: Literal["1", "2", "3", "4", "5", "failed"]
    before: Optional[CaseNumber]


@dataclass(frozen=True)
class Failed(Cause):
    pod: Number
    reason: Reason


@dataclass(frozen=True)
class InitFailed(Cause):
    pod: Number
    container: Label
    attempt: Number
    code: Integer


@dataclass(frozen=True)
class Awaited(Cause):
    pod: Number
    container: Label
    for_: Literal["completion"]


@dataclass(frozen=True)
class Completed(Cause):
    pod: Number
    container: Label
    attempt: Number


@dataclass(frozen=True)
class Stopped(Cause):
    pod: Number
    container: Label
    attempt: Number
    code: Integer


@dataclass(frozen=True)
class Unfinished(Cause):
    pod: Number
    container: Label
    is_: Literal["waiting", "running", "restarting"]
    code: Optional[Integer]


@dataclass(frozen=True)
class Decided(Cause):
    pod: Number
    container: Label
    by: Decider
    policy: Policy
    rule: Optional[Number]


# --- of the node ---


@dataclass(frozen=True)
class Sample(Cause):
    value: Optional[Amount]
    limit: Amount
    capacity: Optional[Amount]
    percent: Optional[Percentage]
    since: Optional[Number]


@dataclass(frozen=True)
class Active(Cause):
    signal: Signal
    kind: Kind
    since: Number


@dataclass(frozen=True)
class Met(Cause):
    last: Number
    period: Number


@dataclass(frozen=True)
class Asks(Cause):
    value: Amount
    limit: Amount
    since: Number
    grace: Number
    at: Number


@dataclass(frozen=True)
class Reclaimed(Cause):
    value: Amount
    enough: Amount


@dataclass(frozen=True)
class ActedOn(Cause):
    signal: Signal
    kind: Kind
    value: Amount
    limit: Amount
    since: Number
    grace: Number
    at: Number


@dataclass(frozen=True)
class Other(Cause):
    signal: Signal
    kind: Kind
    why: Literal["reclaimed", "later"]


@dataclass(frozen=True)
class Candidates(Cause):
    count: Number
    ended: Number
    exempt: Number


@dataclass(frozen=True)
class Candidate(Cause):
    pod: Number
    key: Key
    unsampled: Truth
    exceeds: Optional[Truth]
    priority: Integer
    usage: Amount
    request: Optional[Amount]
    excess: Optional[SignedAmount]
    failed: Truth


@dataclass(frozen=True)
class More(Cause):
    count: Number


@dataclass(frozen=True)
class Ordered(Cause):
    by: Literal["unsampled", "exceeds", "priority", "excess", "usage", "number", "alone"]


@dataclass(frozen=True)
class Grace(Cause):
    pod_period: Number
    greatest: Number


@dataclass(frozen=True)
class Pause(Cause):
    by: Number
    at: Number
    until: Number
    ended: Literal["seconds", "exited", "gone"]


@dataclass(frozen=True)
class Same(Cause):
    since: Number


@dataclass(frozen=True)
class Paused(Cause):
    at: Number
    signal: Signal
    kind: Kind
    by: Number
    since: Number
    until: Number


@dataclass(frozen=True)
class Nobody(Cause):
    at: Number
    signal: Signal
    kind: Kind
    ended: Number
    exempt: Number


KINDS: dict[str, type[Cause]] = {line_of(kind).name: kind for kind in Cause.__subclasses__()}


def cause_of(number: int, line: str) -> Cause:
    """The cause of a line, without its newline, which has this number in its text. Raises CausesFault."""
    kind = KINDS.get(line[8 : line.find(" ", 8)]) if line.startswith("because ") else None
    if kind is None:
        raise CausesFault(f"line {number} of the causes is of no known kind: {outside.visible(line)}")
    _, keys, forms, pattern = line_of(kind)
    found = pattern.fullmatch(line)
    if found is None:
        wanted = " ".join(f"{key}=" for key in keys)
        raise CausesFault(f"line {number} of the causes has other keys or values than {wanted}: "
                          f"{outside.visible(line)}")
    return kind(*[form.read(text) for form, text in zip(forms, found.groups())])
