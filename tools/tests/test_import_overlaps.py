"""The tests of what tools/import makes of journals of one kubelet that overlap: each message is read once, whatever the
forms of the journals are."""

import json
import tempfile

import cases
from checks import expect, read
from test_import import FOLDER, as_json, imported, journald, lines_of, short_iso
from test_import_gaps import as_lines, gap_in, records

load_tests = cases.loaded(__name__)

# of the log: where its second journal begins, and where its first one ends
SECOND_BEGINS, FIRST_ENDS = "I0301 10:00:30.0", "I0301 10:00:50.0"


def parts(text, begins=SECOND_BEGINS, ends=FIRST_ENDS):
    """Two parts of a log that overlap."""
    return text[:text.index(ends)], text[text.index(begins):]


def imported_of(*texts, node=True):
    """What is made of several journals."""
    with tempfile.TemporaryDirectory() as folder:
        words = ["--node", "worker-3"] if node else []
        for number, text in enumerate(texts):
            words += ["--journal", f"{folder}/{number}"]
            with open(f"{folder}/{number}", "w", encoding="utf-8") as file:
                file.write(text)
        return imported(*words)


def with_cursors(text, begin=0x1000, shift=0):
    """The records of `journalctl -o json`, as `--show-cursor` has them; their moments may be a little later."""
    made = []
    for number, (line, second, fraction, process, *_) in enumerate(lines_of(text)):
        stamp = int(f"{second}{fraction}") + shift
        made.append(json.dumps({
            "__CURSOR": f"s=a1;i={begin + number:x};b=b0;m={stamp - 1772000000000000:x};t={stamp:x};x=1",
            "__REALTIME_TIMESTAMP": str(stamp), "_HOSTNAME": "worker-3", "SYSLOG_IDENTIFIER": "kubelet",
            "_PID": process, "MESSAGE": line}) + "\n")
    return made


def test_import_of_overlapping_journals():
    """The trace is the same as from the whole log, whatever the forms and the order, and a line reports how many
    messages are in both."""
    text, wanted = read(f"{FOLDER}/keyed.log"), read(f"{FOLDER}/keyed.trace")
    first, second = parts(text)
    records_of = with_cursors(text)
    count = len(first.splitlines()) + len(second.splitlines()) - len(text.splitlines())
    cut = len(text.splitlines()) - len(second.splitlines())
    pairs = {
        "klog's lines": (first, second), "the later first": (second, first), "the whole and a part": (text, second),
        "short-iso-precise": (short_iso(first), short_iso(second)), "json": (journald(first), journald(second)),
        "json with cursors": ("".join(records_of[:cut + count]), "".join(records_of[cut:])),
        "JSON of the kubelet": (as_json(first), as_json(second)),
        "json with cursors and short-iso-precise": ("".join(records_of[:cut + count]), short_iso(second)),
        "moments of journald and of klog": ("".join(with_cursors(first, shift=300)), second)}
    for name, texts in pairs.items():
        status, trace, said = imported_of(*texts)
        both = len(second.splitlines()) if name == "the whole and a part" else count
        expect(f"import of overlapping journals, {name}", (status, trace), (0, wanted))
        expect(f"import of overlapping journals, {name}: what is said", (
            "that a journal has too" in said, "contradict" in said), (True, False))
        told = [int(line.split()[1]) for line in said.splitlines() if "that a journal has too" in line]
        # lines that are not read are not compared
        expect(f"import of overlapping journals, {name}: how many", told and both - 2 <= told[0] <= both, True)
    expect("import of journals that do not overlap", "has too" in imported_of(
        text[:text.index(FIRST_ENDS)], text[text.index(FIRST_ENDS):])[2], False)


def test_import_of_lines_that_are_the_same_in_one_journal():
    """A line that one journal has twice counts twice: a moment of whole seconds may have several of a kind."""
    text = read(f"{FOLDER}/keyed.log")
    failed = next(line for line in text.splitlines(keepends=True) if "Probe failed" in line)
    twice = text.replace(failed, failed + failed, 1)
    first, second = parts(twice)
    expect("import of a line that is there twice", imported_of(first, second)[1], imported_of(twice)[1])


def test_import_of_journals_that_contradict_each_other():
    """A message that one of two lacks, of a time that both have, is taken, and one line reports that."""
    text, wanted = read(f"{FOLDER}/keyed.log"), read(f"{FOLDER}/keyed.trace")
    first, second = parts(text)
    lacking = "".join(line for line in second.splitlines(keepends=True) if "10:00:40.04" not in line)
    status, trace, said = imported_of(first, lacking)
    told = [line for line in said.splitlines() if "contradict" in line]
    expect("import of journals that contradict each other", (status, trace, len(told), told and told[0][:26]), (
        0, wanted, 1, "import: 1 message in one al"[:26]))
    # a runtime's journal has other lines, and contradicts nothing
    status, _, said = imported_of(text, read(f"{FOLDER}/containerd.log"))
    expect("import of a kubelet's journal and its runtime's", (status, "contradict" in said), (0, False))


def test_import_of_a_hole_that_another_journal_fills():
    """Where the numbers of one journal's lines show that some are missing, and another journal has them, nothing is."""
    text = read(f"{FOLDER}/keyed.log")
    begin, end = "I0301 10:01:20.000000", "I0301 10:01:22.0"
    whole = records(text, None, True)
    holed = [record for record in whole if not begin[6:] <= record["MESSAGE"][6:21] < end[6:]]
    rest = text[text.index("I0301 10:00:54"):]
    expect("import of a hole", gap_in(imported_of(as_lines(holed))[1])[0] is None, False)
    status, trace, said = imported_of(as_lines(holed), short_iso(rest))
    expect("import of a hole that another journal fills", (status, gap_in(trace)[0], "another one has some" in said), (
        0, None, True))
    expect("import of a hole that another journal fills: the trace", trace, read(f"{FOLDER}/keyed.trace"))
