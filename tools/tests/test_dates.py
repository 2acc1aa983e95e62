"""The tests of times of the calendar: which days and zones there are, wherever one is read."""

import cases
from checks import expect

from replay_tools import dates, entry
from replay_tools.importing import moments, records
from replay_tools.joined import asked, files
from replay_tools.record import runtime

load_tests = cases.loaded(__name__)

NOW = 1795759200.0  # 2026-11-27 06:00:00Z


def fault_of(text):
    try:
        return asked.moment_of(text, "--at", NOW)
    except entry.Fault as fault:
        return str(fault)


def test_days_and_zones():
    for parts, wanted in (((2026, 2, 28, 0, 0, 0), 1772236800), ((2026, 2, 31, 0, 0, 0), None),
                          ((2024, 2, 29, 0, 0, 0), 1709164800), ((2026, 13, 1, 0, 0, 0), None),
                          ((2026, 1, 1, 24, 0, 0), None), ((2016, 12, 31, 23, 59, 60), 1483228800),
                          ((1969, 12, 31, 0, 0, 0), None), ((0, 1, 1, 0, 0, 0), None)):
        expect(f"the seconds of {parts}", dates.seconds_of(*parts), wanted)
    for zone, wanted in (("Z", 0), ("UTC", 0), ("+01:00", 3600), ("-0330", -12600), ("+99:00", None), ("+01:60", None),
                         ("CET", None)):
        expect(f"the zone {zone}", dates.shift_of(zone), wanted)


def test_each_reader_of_times():
    """A day or a zone that there is not is no time for any of them."""
    for day, zone, wanted in (("2026-02-28", "Z", 1772236800), ("2026-02-31", "Z", None), ("2026-02-28", "+99:00", None)):
        expect(f"a recorder reads {day}{zone}", runtime.moment_of(f"{day}T00:00:00{zone}"), wanted)
        expect(f"an import reads {day}{zone}", moments.moment_of_iso(f"{day}T00:00:00{zone}"), wanted)
        if zone == "Z":
            expect(f"the name of a trace has {day}", files.begun_of(f"{day}T00-00-00Z"), wanted)
    for text, wanted in (("Feb 28, 2026 @ 13:00:00.500", 1772283600.5), ("2/28/2026, 1:00:00.000 PM", 1772283600),
                         ("2/28/2026, 12:00:00 AM", 1772236800), ("Feb 31, 2026 @ 13:00:00.500", None),
                         ("Feb 28, 1969 @ 13:00:00.000", None), ("Foo 28, 2026 @ 13:00:00.000", None),
                         ("2/31/2026, 1:00:00.000 PM", None), ("2/28/2026, 13:00:00 PM", None)):
        expect(f"an import reads {text}", records.moment_of(text), wanted)
    expect("--at of a day that there is not", fault_of("2026-02-31T03:10Z"), "--at 2026-02-31T03:10Z is no time that "
           "there is")
    expect("--at of a zone that there is not", fault_of("03:10+99:00"), "--at 03:10+99:00: there is no zone +99:00")
    expect("--at", fault_of("03:10Z"), 1795749000)
