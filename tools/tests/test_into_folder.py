"""The tests of the folder of `tools/record --into`: nothing that was whole is lost in it, by a clock or by a crash, and
the recorder goes on where there is no room."""

import contextlib
import fcntl
import glob
import gzip
import json
import os
import random
import shutil
import signal

from chance import BEGIN, SECONDS
import cases
from checks import HERE, LONGEST, TOOLS, TOP, expect, expect_refused, read, run, wait_until
from into_plays import (Clock, ClockUntil, Into, Killed, follows, laid, parts_of, probed_play, recorded_here,
                        unpacked)
from test_into import told_in
from test_plays import quiet_node, report_of
from test_record import Recorder

from player import Play
from replay_tools.manual import record as manual
from replay_tools.record.folder import Folder
from replay_tools.record.into import LastingRecording, Traces
from replay_tools.record.output import Ended
from replay_tools.record.sources import Sources
from replay_tools.record.words import words_of

load_tests = cases.loaded(__name__)


# --- what goes ---


def test_old_traces_go():
    """By age, and no more than two at once, since a clock may be wrong; then by size; the files of others stay."""
    stamps = [f"n1.2025-12-{day:02}T00-00-00Z.trace.gz" for day in range(25, 32)]
    others = ["n2.2025-12-01T00-00-00Z.trace.gz", "n1.2025-12-01.trace.gz", "notes"]
    for words, kept in ((("--keep", "48h"), stamps[2:]), (("--keep", "400d"), stamps),
                        (("--keep", "400d", "--most", "1Mi"), stamps[-1:])):
        into = Into(quiet_node(1, 60))
        for name in stamps + others:
            into.put(name, gzip.compress(random.Random(name).randbytes(400000 if "--most" in words else 40)))
        status, _, said = into.into("--for", "10", *words)
        expect(f"old traces go {' '.join(words)}", (status, said, into.names()),
               (0, "", sorted([*kept, *others, "n1.2026-01-01T00-00-00Z.trace.gz"])))
        into.clean()


# --- a folder that is no good one ---


def can_mount():
    return run(["unshare", "-rm", "mount", "-t", "tmpfs", "none", "/mnt"])[0] == 0


MOUNTED = """mount -t tmpfs -o "$1" none "$2" || exit 90
cp -a "$2.seed/." "$2"; [ -z "$3" ] || mount -o remount,"$3" "$2" || exit 91
folder=$2; shift 3; "$@"; status=$?; cp -a "$folder/." "$folder.made"; exit $status"""


def on_a_mount(into, options, again, *words):
    """Records into a file system of its own, of what lies next to the folder as `seed`; then it is copied out."""
    os.makedirs(f"{into.folder}.seed", 0o755, exist_ok=True)
    os.mkdir(f"{into.folder}.made")
    return into.into(*words, before=["unshare", "-rm", "sh", "-c", MOUNTED, "sh", options, into.folder, again])


def test_folders_that_cannot_be():
    into = Into(quiet_node(1, 60))
    holder = os.open(into.folder, os.O_RDONLY)
    fcntl.flock(holder, fcntl.LOCK_EX)
    expect("a second recorder of a folder", into.into("--for", "10"),
           (1, "", f"record: --into: another recorder writes into '{into.folder}'\n"))
    os.close(holder)
    expect("a recorder behind another one", into.into("--for", "10"), (0, "", ""))
    os.chmod(into.folder, 0o555)
    # a user of no name has no rights on what is another's
    nobody = ["unshare", "-U"] if os.getuid() == 0 else []
    if not nobody or run([*nobody, "test", "-r", f"{TOOLS}/record"])[0] == 0:
        os.chmod(into.run, 0o755)
        expect("a folder that can't be written", into.into("--for", "10", before=nobody),
               (1, "", f"record: --into: '{into.folder}' can't be written: Permission denied\n"))
    os.chmod(into.folder, 0o755)
    if can_mount():
        expect("a read-only file system", on_a_mount(into, "size=1M", "ro", "--for", "10"),
               (1, "", f"record: --into: '{into.folder}' can't be written: Read-only file system\n"))
    into.clean()


def test_folders_of_others():
    """A folder that others may write is rejected, except a sticky one in which the recorder's names are its own."""
    into = Into(quiet_node(1, 60))
    for mode in (0o777, 0o775, 0o2770):
        os.chmod(into.folder, mode)
        expect_refused(f"a folder of mode {mode:o}", into.into("--for", "10"), 1,
                       f"--into: other users may write into '{into.folder}', and change what is there: chmod go-w")
    os.chmod(into.folder, 0o1777)
    expect("a sticky folder", (into.into("--for", "10"), into.names()),
           ((0, "", ""), ["n1.2026-01-01T00-00-00Z.trace.gz"]))
    if os.getuid() == 0:
        for name in ("n1.2025-12-31T00-00-00Z.trace.gz", "n1.2025-12-31T00-00-00Z.trace.part", "n1.ahead"):
            into.put(name, b"")
            os.chown(f"{into.folder}/{name}", 12345, 12345)
            expect_refused(f"a sticky folder with {name} of another", into.into("--for", "10"), 1,
                           f"--into: other users may write into '{into.folder}', and {name} there is another's")
            os.remove(f"{into.folder}/{name}")
        os.chmod(into.folder, 0o755)
        os.chown(into.folder, 12345, -1)
        expect_refused("a folder of another", into.into("--for", "10"), 1, "belongs to another user (uid 12345)")
    into.clean()


def test_room_for_what_is_not_packed():
    """Half of a small --most is left for what is written and packed, as the manual has it."""
    into = Into(quiet_node(1, 60))
    names = [f"n1.2025-12-31T0{hour}-00-00Z.trace.gz" for hour in range(8)]
    for name in names:
        into.put(name, gzip.compress(random.Random(name).randbytes(1000000)))
    answer = into.into("--for", "20", "--each", "10s", "--most", "8Mi")
    kept = sorted(set(names) & set(into.names()))
    expect("traces of --most 8Mi", (answer[0], kept), (0, names[-len(kept):]))
    expect("half of --most is kept", sum(os.path.getsize(f"{into.folder}/{name}") for name in kept) // 1000000, 4)
    expect("the manual has what is left", "Of these 128Mi, or half if --most is below 256Mi, remain for what is not "
           "packed" in " ".join(manual.TEXT.split()), True)
    into.clean()


def test_refused_folders_are_told():
    """The manual has which folders are rejected, and the pages what to do if a folder is made for a recorder."""
    expect("the manual has which folder is rejected", "belongs to another user than root or the recorder's, or its "
           "group or others may write it" in " ".join(manual.TEXT.split()), True)
    for path in ("docs/recorder.md", "SECURITY.md", "deploy/daemonset.yaml"):
        told = read(f"{TOP}/{path}")
        expect(f"{path} says what to do with a folder of others", ("chown root" in told, "chmod go-w" in told),
               (True, True))


def test_links_in_a_folder():
    """What lies under a name that the recorder would give, as a link, is not written through and not read."""
    into, aside, name = Into(quiet_node(1, 60)), "precious\n", "n1.2026-01-01T00-00-00Z.trace"
    with open(f"{into.run}/target", "w", encoding="utf-8") as file:
        file.write(aside)
    for kind in (f"{name}.gz.part", f"{name}.part", f"{name}.gz", "n1.ahead"):
        os.symlink(f"{into.run}/target", f"{into.folder}/{kind}")
        status, _, said = into.into("--for", "10", "--each", "10s")
        expect(f"a link {kind[-8:]}", (status, read(f"{into.run}/target"), said if "left as it is" not in said else ""),
               (0, aside, ""))
        expect(f"a link {kind[-8:]}: the trace", [text.count('"kind":"node"') for path, text in made_in(into)], [1])
        for left in into.names():
            os.remove(f"{into.folder}/{left}")
    clock = LinkingClock(f"{into.run}/target", f"{into.folder}/{name}.gz.part")
    expect("a link that comes before a trace is packed",
           (recorded_here(into, clock, "--for", "30"), read(f"{into.run}/target"), into.names()),
           ([], aside, [f"{name}.gz"]))
    os.remove(f"{into.folder}/{name}.gz")
    os.mkfifo(f"{into.folder}/n1.2025-12-31T00-00-00Z.trace.part")
    os.mkfifo(f"{into.folder}/n1.2025-12-31T00-00-00Z.trace.gz")
    expect("pipes in a folder", into.into("--for", "10"),
           (0, "", "record: n1.2025-12-31T00-00-00Z.trace.part is no trace, and is left as it is\n"))
    into.clean()


class LinkingClock(Clock):
    """One that makes a link as it comes to its tenth second."""

    def __init__(self, target, link):
        super().__init__(BEGIN)
        self.target, self.link = target, link

    def wait(self, seconds):
        super().wait(seconds)
        if self.moment == BEGIN + 10:
            os.symlink(self.target, self.link)


class MovingClock(Clock):
    """One that takes a folder away as it comes to its 25th second, and makes another one of its name or none."""

    def __init__(self, folder, is_made_again):
        super().__init__(BEGIN)
        self.folder, self.is_made_again = folder, is_made_again

    def wait(self, seconds):
        super().wait(seconds)
        if self.moment == BEGIN + 25:
            os.rename(self.folder, f"{self.folder}.before")
            if self.is_made_again:
                os.mkdir(self.folder, 0o755)


def test_a_folder_that_is_replaced():
    """A recorder whose folder was removed, or removed and made again, stops with status 1 and a message, and writes
    nothing into the new one, which another recorder may use."""
    for name, is_made_again in (("removed", False), ("made again", True)):
        into = Into(quiet_node(1, 60))
        clock = MovingClock(into.folder, is_made_again)
        try:
            recorded_here(into, clock, "--for", "40", "--each", "20s")
            ended = None
        except Ended as raised:
            ended = raised.status, raised.reason
        expect(f"a folder that was {name}", ended, (1, f"--into: '{into.folder}' was removed or replaced: the recorder "
                                                       "stops, and writes nothing into what is there now"))
        expect(f"a folder that was {name}: when it stops", clock.moment - BEGIN, 25)
        expect(f"a folder that was {name}: what is there", into.names() if is_made_again
               else os.path.lexists(into.folder), [] if is_made_again else False)
        expect(f"a folder that was {name}: what was there", os.listdir(f"{into.folder}.before") != [], True)
        if is_made_again:
            expect("a folder that was made again: another recorder", into.into("--for", "10"), (0, "", ""))
        into.clean()


def made_in(into):
    """The traces of a folder that are files, with their texts."""
    paths = [f"{into.folder}/{name}" for name in into.names() if name.endswith(".gz")]
    return [(path, unpacked(path)) for path in paths if os.path.isfile(path) and not os.path.islink(path)]


def test_a_full_file_system():
    """The oldest traces go first. Where there is none the recorder reports that once, and goes on to its end."""
    if not can_mount():
        return
    into = Into(quiet_node(30, 100))
    os.mkdir(f"{into.folder}.seed", 0o755)
    for hour in range(4):
        with open(f"{into.folder}.seed/n1.2025-12-31T0{hour}-00-00Z.trace.gz", "wb") as file:
            file.write(gzip.compress(random.Random(hour).randbytes(150000)))
    whole = into.record("--for", "60", "--every", "1", "--extended")[1]
    answer = on_a_mount(into, "size=640k", "", "--for", "60", "--every", "1", "--each", "20s")
    made = sorted(glob.glob(f"{into.folder}.made/*"))
    expect("a full file system: the oldest traces go", (answer, [os.path.basename(path)[3:16] for path in made[:4]]),
           ((0, "", "record: n1.2025-12-31T00-00-00Z.trace.gz is removed, to make room for the packing of a trace: No "
             "space left on device\n"), ["2025-12-31T01", "2025-12-31T02", "2025-12-31T03", "2026-01-01T00"]))
    expect("a full file system: nothing is lost", laid(map(unpacked, made[3:])) == whole, True)
    into.clean()

    into = Into(quiet_node(30, 100))
    os.mkdir(f"{into.folder}.seed", 0o755)
    with open(f"{into.folder}.seed/another", "wb") as file:
        file.write(bytes(765000))
    answer = on_a_mount(into, "size=768k", "", "--for", "60", "--every", "1", "--each", "20s")
    expect("a full file system without a trace", (answer, os.listdir(f"{into.folder}.made")),
           ((1, "", f"record: {BEGIN}: nothing is written into '{into.folder}' until it can be: the file system has no "
             "free room\n"), ["another"]))
    into.clean()


def test_lines_that_are_written_in_part():
    """Where a file takes a part of a line that part goes, and the trace ends before it; nothing is lost."""
    into = Into(quiet_node(30, 100))
    whole = into.record("--for", "60", "--every", "1", "--extended")[1]
    limited = ["sh", "-c", 'ulimit -f 100; exec "$@"', "sh"]
    answer = into.into("--for", "60", "--every", "1", before=limited)
    sizes = [len(text) for text in into.texts()]
    expect("lines that are written in part", (answer, max(sizes) <= 51200, len(sizes) > 3, laid(into.texts()) == whole),
           ((0, "", ""), True, True, True))
    into.clean()


class Narrow(Folder):
    """A folder without room at some moments."""

    has_no_room = None

    def room(self):
        return (0, 1) if self.has_no_room() else super().room()


def test_room_that_comes_again():
    """What happens while there is no room is not written, and a trace begins with what is known once there is."""
    into, said = Into(probed_play()), []
    whole = into.record("--for", str(SECONDS), "--extended")[1]
    play = Play(f"{into.run}/play.json")
    clock = Clock(BEGIN)
    sources = Sources("n1", run=lambda words, seconds: play.answer(words, clock.now()))
    words = words_of(["--node", "n1", "--into", into.folder, "--for", str(SECONDS)])
    folder = Narrow(into.folder, "n1", words.into.keep, words.into.most, said.append)
    folder.has_no_room = lambda: 20 <= clock.now() - BEGIN < 35
    output = Traces(folder, 3600, 20000, lambda text, subject=None: said.append(text))
    LastingRecording(words, sources, clock, output, lambda *_: None).run()
    texts = into.texts()
    at = follows(texts[-1])
    # as the room goes a trace ends early, and the next one has what the kept room takes
    expect("room that comes again: a trace behind the others", (len(texts), at["until"] <= BEGIN + 25, at["at"]
                                                                 > BEGIN + 25, at["trace"] in into.names()),
           (3, True, True, True))
    expect("room that comes again: it is said twice", [line.split(": ", 1)[1] for line in said],
           [f"nothing is written into '{into.folder}' until it can be: the file system has no free room",
            "there is room again, and a trace begins"])
    expect("room that comes again: all else is there",
           (whole.startswith(laid(texts[:-1])), whole.endswith(parts_of(texts[-1])[1]),
            [report_of(text)[0] for text in texts]), (True, True, [0, 0, 0]))
    into.clean()


# --- a crash ---


def killed_at(into, play, second, *words):
    """What a recorder leaves that is killed after its look at a second: the names, and the traces as one."""
    clock = ClockUntil(BEGIN, BEGIN + second)
    sources = Sources("n1", run=lambda asked, seconds: play.answer(asked, clock.now()))
    words = words_of(["--node", "n1", "--into", into.folder, *words])
    folder = Folder(into.folder, "n1", words.into.keep, words.into.most, print)
    recording = LastingRecording(words, sources, clock, Traces(folder, words.into.each, 20000, print), lambda *_: None)
    try:
        recording.begin()
        recording.go_on()
    except Killed:
        for descriptor in (folder.descriptor, recording.output.part.descriptor, folder.ahead.descriptor):
            if descriptor is not None:
                os.close(descriptor)
    names = [name for name in into.names() if not name.endswith(".ahead")]
    return names, laid([*into.texts(), read(f"{into.folder}/{names[-1]}")])


def test_crashes():
    """One that is killed leaves all that it has seen up to its last look, as one that ended there would have written
    it, and a tick of that look."""
    for second, each in ((6, "1h"), (7, "1h"), (14, "1h"), (40, "1h"), *((second, "10s") for second in range(20, 32))):
        into = Into(probed_play())
        whole = into.record("--for", str(second), "--extended")[1]
        names, text = killed_at(into, Play(f"{into.run}/play.json"), second, "--each", each)
        ticks = [json.loads(line) for line in text.splitlines() if '"kind":"tick"' in line]
        own = f'{{"kind":"tick","at":{BEGIN + second}'
        lines = [line for line in text.splitlines(True) if not line.startswith(own)]
        expect(f"killed at {second}: its lines", "".join(lines),
               "".join(line for line in whole.splitlines(True) if not line.startswith(own)))
        expect(f"killed at {second}: the last look", BEGIN + second in [tick["at"] for tick in ticks], True)
        status, _, said = into.into("--for", "10")
        expect(f"killed at {second}: the next one", (status, said), (
            0, f"record: {names[-1]} was left by a recorder that "
               f"did not end: it is {names[-1].replace('.part', '.gz')} now\n"))
        into.clean()


# --- clocks ---


def test_clocks_that_jump():
    """A clock that goes back by an hour, and one that goes forward: one line, and all that happens is recorded."""
    for name, jump in (("back", -3600), ("forward", 3600)):
        play = probed_play()
        play["true"] = list(range(SECONDS))
        play["clock"] = [moment + (jump if moment >= 24 else 0) for moment in play["true"]]
        for each in [*play["containers"], *play["probes"]]:
            each.pop("removed", None)
        play["fails"] = []
        into = Into(play)
        status, _, said = into.into("--for", "58" if jump < 0 else "3659")
        texts = into.texts()
        expect(f"a clock that goes {name}", (status, said.count("\n"), f"the clock went {name}" in said),
               (0, 1, True))
        expect(f"a clock that goes {name}: its traces", [len(texts), *(report_of(text)[0] for text in texts)],
               [2, 0, 0])
        whole = told_in(report_of(Into(probed_play()).record("--for", str(SECONDS), "--extended")[1])[1])
        told = [event.split(" ", 2)[2] for text in texts
                for event in told_in(report_of(text)[1], (follows(text) or {"at": -1})["at"])]
        wanted = [event.split(" ", 2)[2] for event in whole]
        kinds = ("started", "died", "kill")
        expect(f"a clock that goes {name}: what is told", sorted(event for event in told if event.split()[2] in kinds),
               sorted(event for event in wanted if event.split()[2] in kinds))
        into.clean()


def test_seconds_that_come_twice():
    """Traces of one second have names of their own, in their order."""
    play = quiet_node(1, 100)
    play["true"] = list(range(110))
    play["clock"] = [moment - (70 if moment >= 80 else 0) for moment in play["true"]]
    into = Into(play)
    status, _, said = into.into("--for", "108", "--each", "20s")
    expect("a second that comes twice", (status, said.count("\n"), [name[14:-9] for name in into.names()]),
           (0, 1, ["00-00-00Z", "00-00-10Z", "00-00-20Z", "00-00-20Z_2", "00-00-40Z", "00-01-00Z"]))
    into.clean()


# --- what was left ---


def a_trace():
    """The bytes of a trace."""
    into = Into(quiet_node(2, 60))
    into.into("--for", "20")
    [text] = into.texts()
    into.clean()
    return text.encode()


def left_files():
    """What may lie in a folder: what it is, the files, the messages, and what is there after the start."""
    whole = a_trace()
    cut, name = whole[:whole.rindex(b"\n", 0, -9) + 50], "n1.2025-12-31T23-00-00Z.trace"
    ended = f"record: {name}.part was left by a recorder that did not end: it is"
    return (
        ("a part that is whole", {f"{name}.part": whole}, f"{ended} {name}.gz now\n", {f"{name}.gz": whole}),
        ("a part that is cut", {f"{name}.part": cut},
         f"{ended} {name}.gz now, without the 49 bytes after its last whole line\n",
         {f"{name}.gz": cut[:cut.rindex(b"\n") + 1]}),
        ("a part with nothing behind its lines", {f"{name}.part": whole + bytes(4096)},
         f"{ended} {name}.gz now, without the 4096 bytes after its last whole line\n", {f"{name}.gz": whole}),
        ("a part that is empty", {f"{name}.part": b""}, f"record: {name}.part has no whole line, and is removed\n", {}),
        ("a part that is cut in its first line", {f"{name}.part": whole[:40]},
         f"record: {name}.part has no whole line, and is removed\n", {}),
        ("a part that is no trace", {f"{name}.part": b"notes\n"},
         f"record: {name}.part is no trace, and is left as it is\n", {f"{name}.part": b"notes\n"}),
        ("a part of another node", {"n2.2025-12-31T23-00-00Z.trace.part": whole},
         "record: n2.2025-12-31T23-00-00Z.trace.part is not of this recorder, and is left as it is\n",
         {"n2.2025-12-31T23-00-00Z.trace.part": whole}),
        ("a part beside what it was packed into", {f"{name}.part": whole, f"{name}.gz": gzip.compress(whole)},
         f"{ended} {name}.gz now\n", {f"{name}.gz": whole}),
        ("a part that was being packed", {f"{name}.part": whole, f"{name}.gz.part": gzip.compress(whole)[:99]},
         f"{ended} {name}.gz now\n", {f"{name}.gz": whole}),
        ("a part beside a damaged trace", {f"{name}.part": whole, f"{name}.gz": gzip.compress(whole)[:99]},
         f"{ended} {name[:-6]}_2.trace.gz now\nrecord: {name}.gz is damaged, and is left as it is: Compressed file "
         "ended before the end-of-stream marker was reached\n",
         {f"{name[:-6]}_2.trace.gz": whole, f"{name}.gz": gzip.compress(whole)[:99]}),
        ("an older trace that is damaged", {f"{name}.gz": gzip.compress(whole)[:99], "n1.2025-12-31T23-30-00Z.trace.gz":
                                            gzip.compress(whole)},
         f"record: {name}.gz is damaged, and is left as it is: Compressed file ended before the end-of-stream marker "
         "was reached\n",
         {f"{name}.gz": gzip.compress(whole)[:99], "n1.2025-12-31T23-30-00Z.trace.gz": whole}),
        ("a damaged trace", {f"{name}.gz": b"\x1f\x8b" + bytes(60)},
         f"record: {name}.gz is damaged, and is left as it is: Unknown compression method\n",
         {f"{name}.gz": b"\x1f\x8b" + bytes(60)}),
    )


def test_what_was_left():
    """Parts and traces that a recorder has left, and what is not its own."""
    for what, files, said, kept in left_files():
        into = Into(quiet_node(1, 30))
        for path, data in files.items():
            into.put(path, data)
        answer = into.into("--for", "10")
        expect(f"left: {what}", answer, (0, "", said))
        made = {path: content(f"{into.folder}/{path}") for path in into.names()}
        made.pop("n1.2026-01-01T00-00-00Z.trace.gz", None)
        expect(f"left: {what}: the files", made, kept)
        into.clean()


def content(path):
    """The bytes of a file, unpacked where that can be."""
    with open(path, "rb") as file:
        data = file.read()
    try:
        return gzip.decompress(data)
    except (OSError, EOFError):
        return data


def parts_in(folder):
    """The sizes of the traces that are written, by name; what is being packed is none of them."""
    found = {}
    for path in glob.glob(f"{folder}/*.trace.part"):
        with contextlib.suppress(FileNotFoundError):
            found[os.path.basename(path)] = os.path.getsize(path)
    return found


def test_ends():
    """A recorder that a signal ends gives its trace its name; the next one ends what a killed one leaves."""
    for name, number in (("told to end", signal.SIGTERM), ("killed", signal.SIGKILL)):
        recorder = Recorder("crash_loop")
        folder = f"{recorder.run}/traces"
        os.mkdir(folder, 0o755)
        words = ["--node", "worker-3", "--into", folder, "--every", "1"]
        process = recorder.start(*words)
        wait_until("a tick", lambda: any(size > 2000 for size in parts_in(folder).values()))
        process.send_signal(number)
        said = process.communicate(timeout=LONGEST)[1].decode()
        made = sorted(name for name in os.listdir(folder) if ".trace." in name)
        expect(f"{name}: the trace", (process.returncode, said, [path[30:] for path in made]),
               (0 if number == signal.SIGTERM else -number, "",
                ["trace.gz" if number == signal.SIGTERM else "trace.part"]))
        if number == signal.SIGKILL:
            process = recorder.start(*words)
            # its message comes before it begins a part of its own
            wait_until("the next one's part", lambda: set(parts_in(folder)) - set(made))
            process.send_signal(signal.SIGTERM)
            said = process.communicate(timeout=LONGEST)[1].decode()
            expect(f"{name}: the next one ends it", f"{made[0]} was left by a recorder that did not end" in said, True)
        made = sorted(glob.glob(f"{folder}/*.gz"))
        lines = [json.loads(line)["kind"] for line in unpacked(made[0]).splitlines()]
        expect(f"{name}: its lines", (lines[:3], set(lines[3:])), (["node", "pod", "tick"], {"tick"}))
        recorder.clean()


def long_trace(second, lines):
    """The bytes of a trace with so many ticks."""
    tick = {"kind": "tick", "at": second, "pods": [], "signals": {"memory.available": 4294967296}}
    head = b'{"kind":"node","version":3,"name":"worker-3"}\n'
    return head + b"".join(json.dumps({**tick, "at": second + place}).encode() + b"\n" for place in range(lines))


def test_ends_while_it_packs():
    """A recorder that a signal ends while it ends what another one has left does that first; what it has not begun
    stays."""
    recorder = Recorder("crash_loop")
    folder, names = f"{recorder.run}/traces", [f"worker-3.2025-12-31T0{hour}-00-00Z.trace" for hour in range(2)]
    for number in (signal.SIGTERM, signal.SIGINT, signal.SIGHUP):
        os.mkdir(folder, 0o755)
        for name, text in zip(names, (long_trace(BEGIN - 86400, 200000), long_trace(BEGIN - 82800, 10))):
            with open(f"{folder}/{name}.part", "wb") as file:
                file.write(text)
        process = recorder.start("--node", "worker-3", "--into", folder)
        wait_until("the packing", lambda: os.path.exists(f"{folder}/{names[0]}.gz.part")
                   or os.path.exists(f"{folder}/{names[0]}.gz"))
        process.send_signal(number)
        said = process.communicate(timeout=LONGEST)[1].decode()
        lines = [f"record: {name}.part was left by a recorder that did not end: it is {name}.gz now\n"
                 for name in names]
        expect(f"{number.name} while it packs", (process.returncode, said in (lines[0], "".join(lines))), (0, True))
        made = {name: content(f"{folder}/{name}") for name in sorted(os.listdir(folder))[:2]}
        expect(f"{number.name} while it packs: the one that it was at",
               made.get(f"{names[0]}.gz") == long_trace(BEGIN - 86400, 200000), True)
        expect(f"{number.name} while it packs: the other one",
               [data for name, data in made.items() if name in (f"{names[1]}.gz", f"{names[1]}.part")],
               [long_trace(BEGIN - 82800, 10)])
        shutil.rmtree(folder)
    recorder.clean()


def test_crictl_words():
    """crictl by other words, as with a node's own crictl."""
    recorder = Recorder("crash_loop")
    answer = run([f"{TOOLS}/record", "--check", "--node", "worker-3", "--crictl", "env X=1 crictl"],
                 **recorder.settings)
    expect("--crictl: other words start it", (answer[0], answer[1]), (0, read(f"{HERE}/checked/all")))
    answer = run([f"{TOOLS}/record", "--node", "worker-3", "--crictl", "chroot-of-none /host crictl"],
                 **recorder.settings)
    expect_refused("--crictl: a command that is missing", answer, 127, "not on the PATH: chroot-of-none")
    recorder.clean()
