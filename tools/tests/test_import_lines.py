"""The tests of how the importer reads lines in which klog's header follows what journald or a runtime has of them,
compared with a reading of the same text line by line."""

import io
import random
import re

import cases
from checks import expect
from test_import_reading import HEADER, WORDS

from replay_tools.importing import files, journals, messages, moments, skipping

load_tests = cases.loaded(__name__)

HEADERS = {"short-iso": rb"\]: ", "syslog": rb"\]: ", "container": rb" F "}
MOMENTS = {"short-iso": "2026-03-01T10:00:00.000001+0000", "syslog": "Mar  1 10:00:00",
           "container": "2026-03-01T10:00:00.000000001Z"}
# other zones, no microseconds, a clock that goes back, and what is no moment
ODD_MOMENTS = ("2026-03-01T12:00:00,5+02:00", "2026-03-01T10:00:00Z", "2026-03-01T04:30:00.75-0530",
               "2026-03-01T09:00:00.25+0000", "2026-02-28T10:00:00+0000", "2026-13-01T10:00:00+0000",
               "2026-03-01T10:00:61Z", "2026-03-01T10:00:00", "2026-03-01 10:00:00Z", "2026-03-01T10:00:00+9999",
               "Mar  1 09:00:00.25", "Mar 32 10:00:00", "10:00")
SPEAKERS = {"short-iso": "worker-3 kubelet[18448]:", "syslog": "worker-3 kubelet[18448]:", "container": "stderr F"}
ODD_SPEAKERS = ("worker-3 kubelet[7]:", "worker-4 kubelet[18448]:", "worker-3 systemd[1]:", "worker-3 kernel:",
                "n\xf6de k\xfcbelet[18448]:", "worker-3 a[b]: c[1]:", "[x]: y[1]:", "kubelet[1]:",
                "worker-3 kubelet[1]", "stdout F", "stderr P", "stderr F:tag", "F F", "")
BEGIN = HEADER.format(process="18448", line=7)
ODD_BEGINS = ("", "I0301 10:00:00 of no place, and so long that it may be one] ", "I0301 10:00:00.000001 1 a b:1] ",
              HEADER.format(process="18448", line="9" * 250), f"{BEGIN}x]: {BEGIN}", f"{BEGIN}Sync x F {BEGIN}",
              f"{BEGIN}SyncLoop]: {BEGIN}")
ODD_LINES = ("", " goes on", "\tgoes on", "-- Boot 1 --", "foreign", "  ", "\xff\xfe", f"{BEGIN}SyncLoop (ADD): pod",
             f"]: {BEGIN}Nothing", "x" * 400, '{"ts":1,"msg":"Nothing"}')


def lines_made(chance, form):
    """Lines as a journal of a form has them, and others."""
    made = []
    for _ in range(chance.randrange(60)):
        moment, speaker, begin = MOMENTS[form], SPEAKERS[form], BEGIN
        if chance.random() < 0.3:
            moment, speaker, begin = (chance.choice((usual, chance.choice(odd))) for usual, odd in (
                (moment, ODD_MOMENTS), (speaker, ODD_SPEAKERS), (begin, ODD_BEGINS)))
        line = f"{moment} {speaker} {begin}{chance.choice(WORDS)}" + chance.choice(("", "", " \xe9"))
        made.append((line if chance.random() < 0.9 else chance.choice(ODD_LINES)).encode("latin-1"))
    return made


def once(lines):
    """The lines with one None in place of several."""
    return [line for place, line in enumerate(lines) if line is not None or place == 0 or lines[place - 1] is not None]


def is_left_out(text, form):
    header = re.search(HEADERS[form] + journals.HEADER, text)
    return header is not None and skipping.is_unwanted(text, header.end())


def test_import_passes_over_lines_of_each_form():
    for form in HEADERS:
        for seed in range(200):
            chance = random.Random(seed)
            lines = lines_made(chance, form)
            cuts = sorted(chance.randrange(len(lines) + 1) for _ in range(chance.randrange(4)))
            blocks = [lines[begin:end] for begin, end in zip([0, *cuts], [*cuts, len(lines)]) if begin < end]
            found = skipping.left_out((b"\n".join(each) for each in blocks), form)
            expect(f"lines of {form} that are passed over: {seed}", list(found),
                   once([None if is_left_out(text, form) else text for text in lines]))


PRINTED = re.compile(rb"(\d{4}-\d\d-\d\dT\d\d:\d\d:\d\d(?:[.,]\d+)?(?:Z|[+-]\d\d:?\d\d)) (\S+) ([^\s:\[]+)"
                     rb"(?:\[(\d+)\])?: ")


def printed_line(text):
    """A line of `journalctl -o short-iso`: its moment, its text, and its unit, process and node."""
    found = PRINTED.match(text)
    moment = None if found is None else moments.moment_of_iso(found[1].decode())
    if moment is None:
        return None, text, "", 0, ""
    node, unit = (found[place].decode("utf-8", "replace") for place in (2, 3))
    return moment, text[found.end():], unit, int(found[4] or 0), node


def read_by_line(text):
    """What is read of a text, its lines that are of no form, and those that are cut."""
    counts, made, foreign = journals.Counts(), [], 0
    for line in journals.lines_of(journals.blocks_of(io.BytesIO(text), counts)):
        if is_left_out(line, "short-iso"):
            made.append(None)
            continue
        found = printed_line(line)
        foreign += found[0] is None and bool(line.strip()) and not line.startswith((b"-- ", b" ", b"\t"))
        made.append(None if skipping.is_skipped(found[1]) else found)
    return once(made), foreign, counts.cut


def read_as_journal(text, form="short-iso"):
    counts, made = journals.Counts(), []
    journal = files.Journal.__new__(files.Journal)
    journal.file, journal.counts, journal.form = files.buffered(io.BytesIO(text), files.MOST), counts, form
    journal.head, journal.is_prefixed = b"", False
    for line in journal.lines(moments.Klog(2026, 0, 0.0), skipping.SKIPPING):
        fields = line.moment, line.text, line.unit, line.process, line.node
        made.append(None if line is journals.SKIPPED else fields)
    return once(made), counts.foreign, counts.cut


def test_import_reads_short_iso_as_line_by_line():
    kept, piece = journals.LONGEST_LINE, journals.PIECE
    journals.LONGEST_LINE, journals.PIECE = 300, 64
    try:
        for seed in range(300):
            text = b"\n".join(lines_made(random.Random(seed), "short-iso"))
            expect(f"lines of short-iso: {seed}", read_as_journal(text), read_by_line(text))
    finally:
        journals.LONGEST_LINE, journals.PIECE = kept, piece


def test_import_of_processes_of_many_digits():
    """Python takes no number of thousands of digits; what has one is no line of its form, and no message."""
    digits = "1" * 5000
    for form, text in (("short-iso", f"{MOMENTS['short-iso']} worker-3 kubelet[{digits}]: hello"),
                       ("syslog", f"{MOMENTS['syslog']} worker-3 kubelet[{digits}]: hello")):
        expect(f"a process of many digits: {form}", read_as_journal(text.encode(), form),
               ([(None, text.encode(), "", 0, "")], 1, 0))
    line = journals.Line(None, f"{HEADER.format(process=digits, line=7)}SyncLoop (ADD): pod".encode())
    found = list(messages.messages_of(iter([line]), moments.Klog(2026, 0, 0.0)))
    expect("a process of many digits: klog", found, [line])
