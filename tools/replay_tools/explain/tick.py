"""What is at fault in a tick line, by the kind of its fault."""

from __future__ import annotations

from collections.abc import Callable, Iterable, Iterator
from typing import Any

from replay_tools import fields
from replay_tools.decided import REASON
from replay_tools.record import formats
from replay_tools.signals import SIGNALS

from . import before as earlier, gates, resizes
from .found import Found, at, is_, nearest, shown
from .node import quantity_advice

MOST_MOMENT = 2**40 - 1
FREED = SIGNALS[1:5]
USAGES = ("memory", "volumes", "logs", "writable", "inodes", "pids")
PROBES, RESULTS = ("startup", "liveness", "readiness"), ("success", "failure", "unknown")


# --- 42 Moment ---


def moment_faults(line: dict[str, Any], before: earlier.Before) -> Iterator[Found]:
    moment = line.get("at")
    if moment is None:
        yield at(("at",), "is missing: the moment of the tick in seconds")
    elif formats.whole_fault(moment, 0, MOST_MOMENT):
        yield is_(("at",), moment, f"it is a whole number of seconds from 0 to {MOST_MOMENT}",
                  "write it without quotes and point; a time of milliseconds is divided by 1000")
    elif before.at is not None and moment <= before.at:
        yield is_(("at",), moment, f"the tick of line {before.tick_line} has {before.at}, and each is later than the "
                  "one before", "keep one tick of each second, in the order of their moments")


# --- 46 Usage ---


def field_faults(line: dict[str, Any], before: earlier.Before) -> Iterator[Found]:
    """Fields with other values than a tick line has."""
    pods = line.get("pods")
    if pods is not None and not isinstance(pods, list):
        yield is_(("pods",), pods, "it is an array of the pods' entries")
    for index, entry in enumerate(pods if isinstance(pods, list) else []):
        yield from entry_faults(entry, ("pods", index))
        if before.version == 3 and isinstance(entry, dict):
            for word in ("unsampled", "deleting"):
                yield from truth_faults(entry, ("pods", index, word))
            yield from failed_faults(entry, ("pods", index, "failed"))
            yield from gates.status_faults(entry, ("pods", index, "conditions"))
            yield from resizes.faults_of(entry, ("pods", index))
    if before.version == 3:
        yield from truth_faults(line, ("judged",))
    yield from signal_faults(line, "signals", SIGNALS)
    yield from signal_faults(line, "afterReclaim", FREED)


def signal_faults(line: dict[str, Any], field: str, allowed: Iterable[str]) -> Iterator[Found]:
    values = line.get(field)
    if values is None:
        return
    if not isinstance(values, dict):
        yield is_((field,), values, "it is an object with signals as its keys")
        return
    for signal, value in values.items():
        if value is None:
            continue
        if signal not in allowed:
            yield at((field, signal), f"is {shown(value)}: no such signal may be there",
                     nearest(signal, allowed) or f"leave it out; there are {', '.join(allowed)}")
        elif formats.is_percentage(value):
            yield is_((field, signal), value, "a tick has amounts and no percentages", "write the amount")
        elif formats.quantity_fault(value):
            yield is_((field, signal), value, "it is no quantity", quantity_advice(value))


def entry_faults(entry: Any, path: tuple[Any, ...]) -> Iterator[Found]:
    if not isinstance(entry, dict):
        yield is_(path, entry, "it is an object, a pod's entry")
        return
    if not isinstance(entry.get("pod"), str):
        yield missing_or(entry, (*path, "pod"), "a pod's key, as shop/web")
    for field, fault_of in (("containers", listing_faults), ("probes", result_faults)):
        items = entry.get(field)
        if items is not None and not isinstance(items, list):
            yield is_((*path, field), items, "it is an array")
        for index, item in enumerate(items if isinstance(items, list) else []):
            where = (*path, field, index)
            yield from fault_of(item, where) if isinstance(item, dict) else [is_(where, item, "it is an object")]
    yield from usage_faults(entry.get("usage"), (*path, "usage"))


def truth_faults(entry: Any, path: tuple[Any, ...]) -> Iterator[Found]:
    if not isinstance(entry.get(path[-1]), (bool, type(None))):
        yield is_(path, entry[path[-1]], "it is true or false, without quotes")


def failed_faults(entry: Any, path: tuple[Any, ...]) -> Iterator[Found]:
    reason = entry.get(path[-1])
    if reason is not None and not (isinstance(reason, str) and REASON.fullmatch(reason)):
        yield is_(path, reason, "it is a reason of 1 to 63 letters, digits, -, _, . and /, a letter first",
                  "write it as the pod's status has it, or Other")


def missing_or(around: Any, path: tuple[Any, ...], wanted: str) -> Found:
    """The fault of a field that is required and is missing, or has another value."""
    value = around.get(path[-1])
    return at(path, f"is missing: {wanted}") if value is None else is_(path, value, f"it is {wanted}")


def required(around: Any, path: tuple[Any, ...], is_good: Callable[[Any], bool], wanted: str) -> Iterator[Found]:
    if not is_good(around.get(path[-1])):
        yield missing_or(around, path, wanted)


def listing_faults(listing: Any, path: tuple[Any, ...]) -> Iterator[Found]:
    yield from required(listing, (*path, "name"), lambda value: isinstance(value, str), "the container's name")
    attempt = listing.get("attempt")
    if attempt is not None and formats.whole_fault(attempt, 0, 2**31 - 1):
        yield is_((*path, "attempt"), attempt, f"it is a whole number from 0 to {2**31 - 1}")
    yield from required(listing, (*path, "state"), lambda value: earlier.state_name(value) is not None,
                        f"one of {', '.join(earlier.STATES)}, or 0, 1, 2, 3")


def result_faults(result: Any, path: tuple[Any, ...]) -> Iterator[Found]:
    yield from required(result, (*path, "container"), lambda value: isinstance(value, str), "the container's name")
    for field, words in (("probe", PROBES), ("result", RESULTS)):
        yield from required(result, (*path, field), words.__contains__, f"one of {', '.join(words)}")


def usage_faults(usage: Any, path: tuple[Any, ...]) -> Iterator[Found]:
    if usage is None:
        return
    if not isinstance(usage, dict):
        yield is_(path, usage, "it is an object with the pod's usage")
        return
    for resource in USAGES:
        value = usage.get(resource)
        if value is not None and formats.quantity_fault(value):
            yield is_((*path, resource), value, "it is no quantity", quantity_advice(value))


# --- 39, 40, 41: pods and containers that are not there, or twice ---


# The program checks these once no field of the line has another value. If one has, the line is another than the program
# has read, which is Wrong.


def entries_of(line: dict[str, Any]) -> Iterator[tuple[int, str, dict[str, Any]]]:
    """The entries of a tick line: the place, the pod's key, and the entry."""
    for index, entry in enumerate(fields.list_at(line, "pods")):
        yield index, fields.text_at(entry, "pod"), entry


def stranger_pods(line: dict[str, Any], before: earlier.Before) -> Iterator[Found]:
    for index, key, _ in entries_of(line):
        if key not in before.pods:
            yield stranger(("pods", index, "pod"), key, before)


def stranger(path: tuple[Any, ...], key: str, before: earlier.Before) -> Any:
    """A key that no present pod has."""
    if key in before.gone:
        return is_(path, key, f"the pod is gone since line {before.gone[key]}", "leave it out of the ticks after that "
                   "line, or write a pod line for the one that came again")
    of_namespace = [known for known in before.pods if known.partition("/")[2] == key]
    if of_namespace:
        return is_(path, key, "a pod is named with its namespace", f"write {' or '.join(of_namespace)}")
    return is_(path, key, "no pod line before this line has this key",
               nearest(key, before.pods) or "put the pod's line before the tick")


def containers_named(line: dict[str, Any]) -> Iterator[tuple[tuple[Any, ...], str, str]]:
    """Each container that a tick line names: the path, the pod's key, and the name."""
    for index, key, entry in entries_of(line):
        for field, name in (("containers", "name"), ("probes", "container")):
            for place, found in enumerate(fields.list_at(entry, field)):
                yield ("pods", index, field, place, name), key, fields.text_at(found, name)


def stranger_containers(line: dict[str, Any], before: earlier.Before) -> Iterator[Found]:
    for path, key, name in containers_named(line):
        known = before.pod(key).containers
        if name not in known:
            yield is_(path, name, f"{key} has no such container: it has {', '.join(known)}",
                      nearest(name, known) or "leave it out; the formats have no ephemeral containers")
    for index, key, entry in entries_of(line) if before.version == 3 else ():
        yield from resizes.strangers(entry, ("pods", index), key, before.pod(key).containers)


def doubled(line: dict[str, Any], _: Any) -> Iterator[Found]:
    pods = set()
    for index, key, _ in entries_of(line):
        if key in pods:
            yield is_(("pods", index, "pod"), key, "the line has an entry of this pod already",
                      "put what the tick has of a pod into one entry")
        pods.add(key)
    for index, key, entry in entries_of(line):
        for field, names in (("containers", ("name",)), ("probes", ("container", "probe"))):
            seen = set()
            for place, found in enumerate(fields.list_at(entry, field)):
                name = tuple(fields.text_at(found, each) for each in names)
                if name in seen:
                    yield at(("pods", index, field, place), f"names {' '.join(name)} of {key} once more",
                             "keep the newest of a tick; the earlier one belongs in a tick of its own")
                seen.add(name)


# --- 43 Backwards, 44 ExitCode ---


def listings_of(line: dict[str, Any]) -> Iterator[tuple[tuple[Any, ...], str, dict[str, Any]]]:
    for index, key, entry in entries_of(line):
        for place, found in enumerate(fields.list_at(entry, "containers")):
            yield ("pods", index, "containers", place), key, found


def backwards(line: dict[str, Any], before: earlier.Before) -> Iterator[Found]:
    for path, key, found in listings_of(line):
        known = before.pod(key).listed.get(fields.text_at(found, "name"))
        if known:
            yield from backwards_of(path, key, found, known, before)


def backwards_of(path: tuple[Any, ...], key: str, found: dict[str, Any], known: earlier.Listed,
                 before: earlier.Before) -> Iterator[Found]:
    name, attempt, state = fields.text_at(found, "name"), fields.number_at(found, "attempt", 0), earlier.state_at(found)
    if attempt < known.attempt:
        yield is_((*path, "attempt"), attempt, f"line {known.line} listed attempt {known.attempt} of {name} of {key} "
                  "already, and attempts never fall")
    elif attempt == known.attempt and known.line != before.tick_line:
        yield is_((*path, "name"), name, f"attempt {attempt} of {key} was left out after line {known.line}, so it has "
                  "exited, and is listed again", "record every tick whole")
    elif attempt == known.attempt and earlier.STATES.index(state) < earlier.STATES.index(known.state):
        yield is_((*path, "state"), found["state"], f"attempt {attempt} of {name} of {key} was {known.state} by line "
                  f"{known.line}, and is {state} now", "a restart has the next attempt")


def exit_codes(line: dict[str, Any], _: Any) -> Iterator[Found]:
    for path, key, found in listings_of(line):
        code = found.get("exitCode")
        if earlier.state_at(found) != earlier.EXITED:
            continue
        if code is None:
            yield at((*path, "exitCode"), f"is missing: {fields.text_at(found, 'name')} of {key} has exited",
                     "ask for its code with crictl inspect; one that nobody knows counts as 137")
        elif formats.whole_fault(code, -2**31, 2**31 - 1):
            yield is_((*path, "exitCode"), code, f"it is a whole number from {-2**31} to {2**31 - 1}",
                      "write it without quotes and point")


FAULTS = {42: moment_faults, 46: field_faults, 39: stranger_pods, 40: stranger_containers, 41: doubled, 43: backwards,
          44: exit_codes}
