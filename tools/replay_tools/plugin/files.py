"""The file of -f: a trace, of which the report is made, or a report."""

from __future__ import annotations

import os
import signal
import stat
import subprocess
import sys
from typing import Any, IO, NoReturn

from replay_tools import entry, outside, packed, program as programs, report as reports, traces
from replay_tools.cli.statuses import Status
from replay_tools.joined import files as traces_of

# a longer one is no line of a trace
LONGEST_LINE = 1 << 21
PIECE = 1 << 16
REPORT = b"node "
# where Linux has the files that a process has open; macOS has nothing like it
OPEN_FILES = "/proc/self/fd"


def is_report(path: str) -> bool:
    """Whether a file begins as a report, which gzip may have packed. One that can't be read, or not twice, is a
    fault."""
    if os.path.exists(path) and not (os.path.isfile(path) or os.path.isdir(path)):
        raise entry.Fault(f"{path} is a device or a pipe; a report may come on standard input")
    try:
        with open(path, "rb") as file:
            return packed.first_bytes(file, len(REPORT)) == REPORT
    except OSError as fault:
        raise entry.Fault(f"{path} can't be read: {fault.strerror}") from None
    except packed.Damaged:
        return False


def plain(path: str) -> str:
    """The path of a trace as the program takes it: of a packed trace the path of a copy that is not packed, and so of
    one whose name is not UTF-8."""
    try:
        if not os.path.isfile(path) or not packed.is_packed_file(path) and outside.is_utf8(path):
            return path
        text = packed.read(path, traces.LONGEST_TRACE)
    except OSError:
        return path
    except packed.Damaged as fault:
        raise entry.Fault(f"{path}: {fault}") from None
    return path_of(kept(text))


def open_report(path: str | None) -> IO[bytes]:
    """A file that holds the report: of the file that was named, or of standard input without one."""
    if path is None:
        given = entry.standard_input()
        if given.isatty():
            raise entry.Fault("it needs -f FILE, a trace or a report, or a report on standard input")
        return given
    if is_report(path):
        return open(plain(path), "rb")
    return replayed(path)


def temporary() -> IO[bytes]:
    """A file without a name."""
    import tempfile
    try:
        return tempfile.TemporaryFile()
    except OSError as fault:
        raise no_room(fault.strerror) from None


def no_room(said: str) -> entry.Fault:
    """The fault that there is no room for a tool's own files."""
    folder = os.environ.get("TMPDIR") or "/tmp"
    return entry.Fault(f"it can't keep files in {folder}: {said} (TMPDIR names another folder)", Status.FAILED)


def replayed(path: str) -> IO[bytes]:
    """The report of a trace, as a file without a name."""
    named, path = shown(path), plain(path)
    program, report = programs.path(), temporary()
    option = format_words(path)
    words = ["run", path, *option]
    try:
        done = subprocess.run([program, *words], stdout=report, stderr=subprocess.PIPE, check=False)
    except OSError as fault:
        raise entry.Fault(programs.missing(program, fault), Status.MISSING) from None
    if done.returncode != Status.DONE:
        said = done.stderr.decode("utf-8", "replace").split("\n")[0] or f"status {done.returncode}"
        if said == "write failed":
            raise no_room("it takes no more")
        if done.returncode == Status.BAD_INPUT:
            raise entry.Fault(f"{named} is rejected: {said}", means=meaning(path, bool(option)))
        status = Status.MISSING if done.returncode == Status.MISSING else Status.FAILED
        raise entry.Fault(f"{named} can't be replayed: {said}", status)
    report.seek(0)
    return report


def meaning(path: str, is_extended: bool) -> str | None:
    """What a rejection of a file means, in one line."""
    from replay_tools.explain import beside
    return beside.meaning(path, is_extended)


def format_words(path: str) -> list[str]:
    try:
        with open(path, "rb") as file:
            return format_words_of(file)
    except OSError as fault:
        raise entry.Fault(f"{path} can't be read: {fault.strerror}") from None


def format_words_of(file: IO[bytes]) -> list[str]:
    return programs.format_words(iter(lambda: file.readline(LONGEST_LINE), b""))


def with_format(path: str) -> tuple[str, IO[bytes] | None, list[str]]:
    """The path of a trace, a copy of it that is to be standard input where it can be read but once, and the words for
    its format. What can't be read the program has to show."""
    try:
        with open(path, "rb") as file:
            if stat.S_ISREG(os.fstat(file.fileno()).st_mode):
                return path, None, format_words_of(file)
            text = packed.unpacked(file.read(traces.LONGEST_TRACE + 1), traces.LONGEST_TRACE)
    except OSError:
        return path, None, []
    except packed.Damaged as fault:
        raise entry.Fault(f"{path}: {fault}") from None
    copy = kept(text)
    return "/dev/stdin", copy, format_words_of(copy)


def pods_in(report: IO[bytes], namespace: str) -> list[str]:
    """The keys of the pods of a namespace in an open report, each once; the report can be read once more after that."""
    try:
        found = reports.read_report(entry.read_bounded(report, "the report").decode("utf-8", "replace"))
    except reports.ReportFault as fault:
        raise entry.Fault(str(fault)) from None
    report.seek(0)
    return list(dict.fromkeys(pod.key for pod in found.pods if pod.key.startswith(namespace + "/")))


def whole(report: IO[bytes], what: str = "the report") -> IO[bytes]:
    """The same as a file that can be read twice."""
    return kept(entry.read_bounded(report, what))


def kept(text: bytes) -> IO[bytes]:
    """A file without a name that has these bytes."""
    copy = temporary()
    try:
        copy.write(text)
        copy.seek(0)
    except OSError as fault:
        raise no_room(fault.strerror) from None
    return copy


def keys_of(path: str) -> list[str]:
    """The keys of the pods that a trace or a report names, or the last trace of a folder, for a completion: none where
    it can't be read, and none that the formats don't take, since a shell may read more in it than a name."""
    try:
        if os.path.isdir(path):
            path = os.path.join(path, max(name for name in os.listdir(path) if name.endswith(traces_of.ENDINGS)))
        is_of_report = is_report(path)
        with packed.regular(path) as file:
            text = packed.unpacked(entry.read_bounded(file, path), traces.LONGEST_TRACE).decode()
        if is_of_report:
            keys = [pod.key for pod in reports.read_report(text).pods]
        else:
            keys = [key_of(line) for line in text.split("\n") if '"metadata"' in line]
    except (OSError, ValueError, packed.Damaged, entry.Fault, reports.ReportFault):
        return []
    return [key for key in keys if outside.is_key(key)]


def key_of(line: str) -> str:
    """The key of the pod of a line of a trace; an empty text of any other."""
    found = outside.json_of(line)
    pod = found.get("pod") if isinstance(found, dict) else None
    metadata = pod.get("metadata") if isinstance(pod, dict) else None
    if not isinstance(metadata, dict) or not isinstance(metadata.get("name"), str):
        return ""
    return f"{metadata.get('namespace') or 'default'}/{metadata['name']}"


def run_beside(program: str, words: list[str], path: str, given: IO[bytes] | None, caller: str, label: str = "",
               output: IO[bytes] | None = None) -> Any:
    """Runs the program on a trace, with a file as its standard input, and one as its standard output where that is not
    this one's; its status. A label precedes each line of its standard error. Where it rejects the trace, one more line,
    after the caller's name, has what that means."""
    if given is not None:
        os.lseek(given.fileno(), 0, os.SEEK_SET)
    to_pipe = output is None and stat.S_ISFIFO(os.fstat(1).st_mode)
    said = None if not label and all(map(str.isprintable, words)) else temporary()
    try:
        process = subprocess.Popen([program, *words], stdin=given, stdout=subprocess.PIPE if to_pipe else output,
                                   stderr=said)
    except OSError as fault:
        raise entry.Fault(programs.missing(program, fault), Status.MISSING) from None
    if process.stdout is not None:
        hand_on(process.stdout)
    status = process.wait()
    if said is not None:
        show_plain(said, label)
    if status in (Status.FAILED, Status.BAD_INPUT):
        means = meaning(path, "--extended" in words)
        if means:
            print(f"{caller}{means}", file=sys.stderr)
    if status in (Status.FAILED, Status.BAD_ARGUMENT) and not can_be_read(path):
        return Status.BAD_INPUT
    return status if status >= 0 else 128 - status


def show_plain(said: IO[bytes], label: str) -> None:
    """Shows what the program shows of words that a terminal would follow: it shows them as they are."""
    said.seek(0)
    for line in said.read().decode("utf-8", "replace").splitlines():
        print(f"{label}{outside.visible(line)}", file=sys.stderr)


def can_be_read(path: str) -> bool:
    """Whether a file can be opened and read, as the program does it."""
    try:
        with open(path, "rb") as file:
            file.read(1)
    except OSError:
        return False
    return True


def hand_on(source: IO[bytes]) -> None:
    """Writes what the program writes; what a reader that has gone, as head, does not take is let go, where the program
    would show that it can't write."""
    is_read = True
    while piece := os.read(source.fileno(), PIECE):
        while piece and is_read:
            try:
                piece = piece[os.write(1, piece) :]
            except BrokenPipeError:
                is_read = False


def path_of(file: IO[bytes]) -> str:
    """The path of an open file without a name, as long as this process lasts, also for the programs that this one
    starts or becomes."""
    if not os.path.isdir(OPEN_FILES):
        return path_of_copy(file)
    descriptor = os.dup(file.fileno())
    os.set_inheritable(descriptor, True)
    return f"/proc/{os.getpid()}/fd/{descriptor}"


def path_of_copy(file: IO[bytes]) -> str:
    """The path of a copy that has a name. It goes when this process ends."""
    import atexit
    import shutil
    import tempfile
    try:
        with tempfile.NamedTemporaryFile(prefix="kubelet-replay-", delete=False) as copy:
            atexit.register(os.unlink, copy.name)
            file.seek(0)
            shutil.copyfileobj(file, copy)
    except OSError as fault:
        raise no_room(fault.strerror) from None
    return copy.name


def shown(path: str) -> str:
    """A path as the operator knows it."""
    return "standard input" if path in of_input else path


# the paths by which standard input is read twice
of_input: set[str] = set()


def kept_input() -> str:
    """Standard input as a file that can be read twice."""
    given = entry.standard_input()
    if given.isatty():
        raise entry.Fault("-f - needs a trace or a report on standard input")
    path = path_of(whole(given, "standard input"))
    of_input.add(path)
    return path


def make_input(report: IO[bytes]) -> None:
    """Makes a file standard input, for a tool that reads its report there."""
    if report.fileno() != 0:
        os.lseek(report.fileno(), 0, os.SEEK_SET)
        os.dup2(report.fileno(), 0)
    sys.stdin = open(0, encoding="utf-8", closefd=False)


def become(program: str, words: list[str]) -> NoReturn:
    """Becomes a program. It does not come back."""
    sys.stdout.flush()
    # Python ignores it, and a program would begin so
    signal.signal(signal.SIGPIPE, signal.SIG_DFL)
    try:
        os.execv(program, [program, *words])
    except OSError as fault:
        raise entry.Fault(programs.missing(program, fault), Status.MISSING) from None
