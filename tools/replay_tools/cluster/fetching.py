"""Copies traces from recorders into a folder."""

from __future__ import annotations

import contextlib
import os
import re
import secrets
import stat
import time
from collections.abc import Iterator
from concurrent.futures import ThreadPoolExecutor, as_completed
from dataclasses import dataclass, field
from typing import BinaryIO

from replay_tools import amounts, entry, outside, packed, report as reports, safe_folder, traces
from replay_tools.cluster import recorders as asking
from replay_tools.cluster.waiting import Waiting
from replay_tools.joined import files

AT_ONCE = 16
TRIES = 2
# of a part, what is ahead at its end is taken away at the next poll
MOST_OF_TRACE = traces.LONGEST_TRACE + (1 << 20)
MOST_OF_NODE = 1 << 30
# after so many that did not come no more of a node are asked for
MOST_FAILED = 3
# a copy that is not whole yet has a name of its own, so that no other fetch writes or renames it
COPY = ".copy"
OWN_COPY = re.compile(r"(.+)\.[0-9a-f]{16}\.copy")
# one that is older was left by a fetch that was killed: no copy of a trace takes so long
LEFT_SECONDS = 24 * 3600
TICK = b'{"kind":"tick"'


@dataclass
class Wanted:
    """Of which time traces are needed, either end of which may be left open, and how many bytes of each node."""

    first: int | None = None
    last: int | None = None
    most: int = MOST_OF_NODE


@dataclass
class Fetched:
    """What came of a node: the traces that were copied, those that were there already, and why not all."""

    node: str
    copied: list[str] = field(default_factory=list)
    known: list[str] = field(default_factory=list)
    size: int = 0
    until: int | None = None
    """of the trace that is still written, the moment of its last whole tick"""
    faults: list[str] = field(default_factory=list)


def now() -> float:
    return time.time()


def fetched(cluster: asking.Cluster, recorders: list[asking.Recorder], into: str, wanted: Wanted) -> list[Fetched]:
    """Copies what recorders hold of a time into a folder; what came of each, in the order of the recorders."""
    with Waiting(cluster.seconds) as waiting:
        found = {came.node: came for came in coming(cluster, recorders, into, wanted, waiting)}
    return [found[recorder.node] for recorder in recorders]


def coming(cluster: asking.Cluster, recorders: list[asking.Recorder], into: str, wanted: Wanted,
           waiting: Waiting) -> Iterator[Fetched]:
    """Copies what recorders hold of a time into a folder, and gives what came of each node once it is there."""
    def of_one(recorder: asking.Recorder) -> Fetched:
        with waiting.for_answer(recorder.node):
            return of_node(cluster, recorder, folder, wanted)

    folder = open_folder(into)
    try:
        with ThreadPoolExecutor(AT_ONCE) as threads:
            for done in as_completed([threads.submit(of_one, recorder) for recorder in recorders]):
                yield done.result()
    finally:
        os.close(folder)


def open_folder(path: str) -> int:
    """The descriptor of the folder that is written into, which is made where it is not there. Raises Fault where it
    can't be, or may be written by others."""
    try:
        os.makedirs(path, 0o755, exist_ok=True)
        folder = safe_folder.opened(path)
    except OSError as fault:
        raise entry.Fault(f"{path} can't be made: {fault.strerror}") from None
    if not os.access(path, os.W_OK | os.X_OK):
        os.close(folder)
        raise entry.Fault(f"{path} can't be written to")
    said = safe_folder.fault(folder, lambda name: files.parts_of(without_copy(name))[1] is not None)
    if said is not None:
        os.close(folder)
        raise entry.Fault(f"{path} {said}")
    drop_left(folder)
    return folder


def without_copy(name: str) -> str:
    """The name that a copy has once it is whole; another name is that already."""
    found = OWN_COPY.fullmatch(name)
    return found[1] if found else name.removesuffix(COPY)


def drop_left(folder: int) -> None:
    """Takes away what a fetch that was killed has left long ago, and links of such names."""
    for name in os.listdir(folder):
        if name.endswith(COPY) and files.parts_of(without_copy(name))[1] is not None:
            with contextlib.suppress(OSError):
                found = os.stat(name, dir_fd=folder, follow_symlinks=False)
                is_left = safe_folder.is_own(folder, name) and now() - found.st_mtime > LEFT_SECONDS
                if is_left or stat.S_ISLNK(found.st_mode):
                    safe_folder.drop(folder, name)


def of_node(cluster: asking.Cluster, recorder: asking.Recorder, folder: int, wanted: Wanted) -> Fetched:
    found = Fetched(recorder.node)
    try:
        held = cluster.held(recorder)
    except asking.NoAnswer as fault:
        found.faults.append(str(fault))
        return found
    left = held.left_words()
    if left is not None:
        found.faults.append(left)
    chosen = of_time(held.files, wanted)
    if not held.files:
        found.faults.append("its recorder has no trace yet")
    elif not chosen:
        found.faults.append(f"its recorder has no trace of that time; it has {span_words(held.files)}")
    take_all(cluster, recorder, chosen, folder, wanted.most, found)
    return found


def span_words(held: list[asking.File]) -> str:
    return (f"traces of {reports.moment_text(held[0].begun, True)} to "
            f"{reports.moment_text(max(file.changed for file in held), True)}")


def of_time(held: list[asking.File], wanted: Wanted) -> list[asking.File]:
    """Those that may have something of a time: each lasts to the begin of the next at most, the last one to when it was
    written last."""
    ends = [file.begun for file in held[1:]] + [held[-1].changed if held else 0]
    return [file for file, end in zip(held, ends) if (wanted.first is None or end >= wanted.first)
            and (wanted.last is None or file.begun <= wanted.last)]


def take_all(cluster: asking.Cluster, recorder: asking.Recorder, chosen: list[asking.File], folder: int, most: int,
             found: Fetched) -> None:
    """Copies traces as far as they come and as there is room for them; one that does not come leaves the others."""
    failed = 0
    for place, file in enumerate(chosen):
        left = entry.counted(len(chosen) - place, "more trace")
        if is_there(folder, file):
            found.known.append(file.name)
        elif file.size <= MOST_OF_TRACE and found.size + file.size > most:
            found.faults.append(f"{left} would pass {amounts.amount_text(1000 * most, True)}, the most that is copied "
                                "(--most)")
            return
        elif failed == MOST_FAILED:
            found.faults.append(f"{left} {'is' if left.startswith('1 ') else 'are'} not asked for")
            return
        else:
            failed += not is_taken(cluster, recorder, file, folder, most - found.size, found)


def is_taken(cluster: asking.Cluster, recorder: asking.Recorder, file: asking.File, folder: int, room: int,
             found: Fetched) -> bool:
    """Whether one trace was copied; else why not is a fault of the node."""
    try:
        take(cluster, recorder, file, folder, room, found)
    except asking.NoAnswer as fault:
        found.faults.append(str(fault))
        return False
    except OSError as fault:
        found.faults.append(f"{file.name} can't be written: {fault.strerror}")
        return False
    return True


def is_there(folder: int, file: asking.File) -> bool:
    """Whether a trace that has ended was copied before."""
    if file.is_part or not safe_folder.is_own(folder, file.name):
        return False
    return os.stat(file.name, dir_fd=folder, follow_symlinks=False).st_size == file.size


def take(cluster: asking.Cluster, recorder: asking.Recorder, file: asking.File, folder: int, room: int,
         found: Fetched) -> None:
    """Copies one trace, which has its name once it is whole."""
    if file.size > MOST_OF_TRACE:
        raise asking.NoAnswer(f"{file.name} has {amounts.amount_text(1000 * file.size, True)}, more than a trace may")
    made = f"{file.name}.{secrets.token_hex(8)}{COPY}"
    try:
        with os.fdopen(safe_folder.made(folder, made, 0o644), "w+b") as copy:
            name = whole(cluster, recorder, file, copy, min(room, MOST_OF_TRACE))
            is_part, until = name.endswith(files.PART), None
            if is_part:
                until = cut(copy, name)
            check_node(copy, recorder.node, name)
            copy.seek(0, os.SEEK_END)
            size = copy.tell()
        safe_folder.rename(folder, made, name)
        if not is_part:
            # what was copied of it while it was written
            safe_folder.drop(folder, f"{name.removesuffix('.gz')}.part")
    finally:
        safe_folder.drop(folder, made)
    found.until = until if is_part else found.until
    found.copied.append(name)
    found.size += size


def whole(cluster: asking.Cluster, recorder: asking.Recorder, file: asking.File, copy: BinaryIO, most: int) -> str:
    """Writes a trace into a file; its name. A part may have ended since it was listed, and is packed then; what came
    cut is asked for once more. What the recorder writes ahead of a part may be less by then."""
    for each in range(TRIES):
        copy.seek(0)
        copy.truncate()
        try:
            cluster.content(recorder, file, most, copy.write)
        except asking.NoAnswer as fault:
            if not file.is_part or each + 1 == TRIES:
                raise asking.NoAnswer(f"{file.name}: {fault}") from None
            file = asking.File(f"{file.name.removesuffix('.part')}.gz", 0, 0)
            continue
        size = copy.tell()
        if file.is_part:
            fits = size >= file.size or (each + 1 == TRIES and last_tick(copy)[1] is not None)
        else:
            fits = is_whole(copy, file.size)
        if fits:
            return file.name
    raise asking.NoAnswer(f"{file.name} did not come whole: {size} of {file.size} bytes")


def cut(copy: BinaryIO, name: str) -> int | None:
    """Cuts a part after its last whole line; the moment of its last tick, None where it has none yet."""
    end, line = last_tick(copy)
    copy.truncate(end)
    if line is None:
        return None
    found = outside.json_of(line)
    until = outside.moment(found.get("at")) if isinstance(found, dict) else None
    if until is None:
        raise asking.NoAnswer(f"{name} ends with an invalid tick line")
    return until


def check_node(copy: BinaryIO, node: str, name: str) -> None:
    """Raises NoAnswer where a trace shows that it is of another node, as which it would be reported and counted."""
    try:
        found = outside.json_of(packed.first_line(copy, traces.LONGEST_LINE))
    except packed.Damaged:
        # it may lie there so
        return
    if not isinstance(found, dict) or found.get("name") != node:
        raise asking.NoAnswer(f"{name} does not begin with the node line of {node}")


def last_tick(copy: BinaryIO) -> tuple[int, bytes | None]:
    """Where the last whole line of a part ends, none of which is longer than a line may be, and the line of its last
    tick, None without one."""
    copy.seek(0)
    end, found = 0, None
    for line in iter(lambda: copy.readline(traces.LONGEST_LINE + 1), b""):
        if not line.endswith(b"\n"):
            break
        end += len(line)
        found = line if line.startswith(TICK) else found
    return end, found


def is_whole(copy: BinaryIO, size: int) -> bool:
    """Whether a packed trace is whole; its size is 0 where it was not listed."""
    came = copy.tell()
    if packed.is_sound(copy, traces.LONGEST_TRACE):
        return size in (0, came)
    # it may lie there so
    return size > 0 and came == size
