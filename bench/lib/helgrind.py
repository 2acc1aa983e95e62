"""What a log of valgrind's helgrind has: how many reports it has of each kind, and its summary."""
import collections
import re


def kind_of(line):
    """The kind of the report that a line of helgrind begins, if it begins one."""
    said = re.match(r"==\d+== (Possible data race during \w+|Thread #\d+.*)", line)
    if not said or re.search(r"was created|is the program's root thread", line):
        return None
    words = re.sub(r"0x[0-9A-Fa-f]+", "ADDRESS", said[1])
    return re.sub(r" #\d+('s|:)?", "", words)


def read_log(lines):
    """The summary, None where there is none, and how often each kind of report came."""
    kinds, count, summary = collections.Counter(), 0, None
    for line in lines:
        # the list after the run has each report once more, with how often it came
        if said := re.match(r"==\d+== (\d+) errors? in context", line):
            count = int(said[1])
        elif count and (kind := kind_of(line)):
            kinds[kind] += count
            count = 0
        elif "ERROR SUMMARY" in line:
            summary = re.sub(r"^==\d+== ", "", line.rstrip())
    return summary, kinds
