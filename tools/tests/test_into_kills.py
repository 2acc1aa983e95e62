"""What a recorder of `tools/record --into` leaves that is killed at any moment: all that it had written, once."""

import json
import os
import signal
import sys
import traceback
import zlib

from chance import BEGIN
import cases
from checks import expect, read
from into_plays import Into, ClockUntil, Killed, laid, probed_play
from test_plays import quiet_node

from player import Play
from replay_tools.record import folder, into, packing, part, traces, writing
from replay_tools.record.folder import Folder
from replay_tools.record.into import LastingRecording, Traces
from replay_tools.record.left import Left
from replay_tools.record.sources import Sources
from replay_tools.record.words import words_of

load_tests = cases.loaded(__name__)

TRACED = {module.__file__ for module in (folder, into, packing, part, traces, writing)}


class CountedClock(ClockUntil):
    """One that calls something at the begin of its last second."""

    def __init__(self, second, begun):
        super().__init__(BEGIN, BEGIN + second)
        self.begun = begun

    def wait(self, seconds):
        super().wait(seconds)
        if self.moment == self.end:
            self.begun()


def recorded(place, clock, words):
    """Records a script into its folder until the clock's end."""
    play = Play(f"{place.run}/play.json")
    sources = Sources("n1", run=lambda asked, seconds: play.answer(asked, clock.now()))
    words = words_of(["--node", "n1", "--into", place.folder, *words])
    made = Folder(place.folder, "n1", words.into.keep, words.into.most, print)
    recording = LastingRecording(words, sources, clock, Traces(made, words.into.each, words.ticks, print),
                                 lambda *_: None)
    try:
        recording.begin()
        recording.go_on()
    except Killed:
        pass


def counted(moment, told):
    """Kills this process in the line of the recorder's folder with this number, or counts how many there are."""
    count = 0

    def trace(frame, event, _):
        nonlocal count
        if frame.f_code.co_filename not in TRACED:
            return None
        count += event == "line"
        if count == moment:
            os.kill(os.getpid(), signal.SIGKILL)
        return trace

    real = os.pwrite
    # what is written in part is a moment too
    os.pwrite = lambda file, data, at: real(file, data[:len(data) // 2 + 1], at)
    sys.settrace(trace)
    return lambda: os.write(told, b"%d" % count)


def killed(place, words, second, moment=-1):
    """A process that records, and is killed within its poll at a second; its id, and where it writes how many moments
    that poll has."""
    read_end, write_end = os.pipe()
    identity = os.fork()
    if identity == 0:
        try:
            ends = []
            recorded(place, CountedClock(second, lambda: ends.append(counted(moment, write_end))), words)
            sys.settrace(None)
            ends[0]()
        except Exception:
            traceback.print_exc()
        finally:
            os._exit(0)
    os.close(write_end)
    return identity, read_end


def left_by(place, identity, read_end):
    """The traces as one that the next recorder makes of what a killed one has left, and the moments that it wrote."""
    status = os.waitpid(identity, 0)[1]
    with os.fdopen(read_end) as file:
        told = file.read()
    end_left(place)
    return os.waitstatus_to_exitcode(status), laid(place.texts()), told


def end_left(place):
    said = []
    made = Folder(place.folder, "n1", 10 ** 6, 10 ** 9, said.append)
    Left(made).end()
    os.close(made.descriptor)
    return said


def whole_at(play, words, second):
    """What a recorder leaves that ends after its look at a second."""
    place = Into(play)
    answer = left_by(place, *killed(place, words, second))
    names = place.names()
    place.clean()
    return (*answer, names)


def faults_of(play, words, second, moments):
    """What a kill at so many moments of a poll, in which one trace ends, leaves otherwise than as it was before that
    poll, or after it."""
    _, before, _, names = whole_at(play, words, second - 1)
    _, behind, told, now = whole_at(play, words, second)
    if len(now) != len(names) + 1:
        yield f"no trace ends at {second}"
        return
    count, has_all = int(told), False
    for first in range(0, moments, 4):
        # four at a time
        chosen = [1 + place * (count - 1) // moments for place in range(first, min(first + 4, moments))]
        places = [Into(play) for _ in chosen]
        started = [killed(place, words, second, moment) for place, moment in zip(places, chosen)]
        for place, moment, process in zip(places, chosen, started):
            status, text, _ = left_by(place, *process)
            place.clean()
            if status != -signal.SIGKILL or text not in ((behind,) if has_all else (before, behind)):
                yield f"killed at moment {moment} of {count} of the look at {second}: {other_line(text, behind)}"
            has_all = has_all or text == behind


def other_line(text, wanted):
    """The first line in which a trace is another one."""
    lines = zip(text.splitlines() + ["(end)"], wanted.splitlines() + ["(end)"])
    return next((one[:150] for one, other in lines if one != other), "the same lines")


def test_kills_where_a_trace_ends():
    """At 200 moments of the looks in which one trace ends and the next begins: what had been written is there, once, as
    one that was not killed wrote it, before that look or after it."""
    for second in (15, 25, 35):
        expect(f"kills at moments of the look at {second}",
               list(faults_of(probed_play(), ["--each", "10s"], second, 67))[:1], [])


def test_kills_where_a_trace_is_full():
    """The same of a trace that has as many ticks as it may."""
    words = ["--each", "1h", "--ticks", "30", "--every", "1"]
    expect("kills in the look of a trace that is full", list(faults_of(quiet_node(3, 60), words, 30, 40))[:1], [])


def kept_ahead(name, size, data, torn=0):
    """The file of lines ahead, as it is written."""
    head = {"part": name, "size": size, "bytes": len(data), "sum": zlib.crc32(data)}
    whole = json.dumps(head).encode() + b"\n" + data
    return whole[:len(whole) - torn]


def test_lines_ahead():
    """Those that are whole and newer than what is in the part are put there, and no others."""
    name = "n1.2026-01-01T00-00-00Z.trace"
    node, ticks = b'{"kind":"node","version":3,"name":"n1"}\n', [b'{"kind":"tick","at":%d}\n' % at for at in range(5)]
    settled = node + ticks[0]
    for what, text, kept, wanted in (
        ("that were not written yet", settled + ticks[1], kept_ahead(name, len(settled), ticks[2]), settled + ticks[2]),
        ("that were written in part", settled + ticks[2][:9], kept_ahead(name, len(settled), ticks[2]),
         settled + ticks[2]),
        ("that are cut", settled + ticks[1], kept_ahead(name, len(settled), ticks[2], 3), settled + ticks[1]),
        ("that are older", settled + ticks[1] + ticks[3], kept_ahead(name, len(settled), ticks[2]),
         settled + ticks[1] + ticks[3]),
        ("of a place within a line", settled + ticks[1], kept_ahead(name, len(settled) - 2, ticks[2]),
         settled + ticks[1]),
        ("of a place behind the end", settled, kept_ahead(name, 10 ** 9, ticks[2]), settled),
        ("of another file", settled, kept_ahead("../precious", 0, ticks[2]), settled),
        ("that are none", settled, b'{"part":[],"size":{},"bytes":"x"}\n', settled),
    ):
        place = Into(quiet_node(1, 9))
        place.put(f"{name}.part", text)
        place.put("n1.ahead", kept)
        with open(f"{place.run}/precious.part", "wb") as file:
            file.write(b"precious\n")
        end_left(place)
        expect(f"lines ahead {what}", (place.names(), place.texts()), ([f"{name}.gz"], [wanted.decode()]))
        expect(f"lines ahead {what}: what lies beside the folder", read(f"{place.run}/precious.part"), "precious\n")
        place.clean()
