"""The section of docs/PERF.md that compares a replay with a plain parser, from given figures."""
import math
import re
import statistics
import textwrap
from typing import NamedTuple

MIB = 1 << 20
# the section's place in the page
BEGIN, END = "<!-- bench/speed --write writes the lines from here -->\n", "<!-- to here -->\n"
TRACES = ("many_pods", "many_ticks", "long_lines", "pressed_pods")
SLOPE = ("ticks_2000", "ticks_6000", "many_ticks")
WORKERS = (1, 2, 4)
MOST_ALONE = 1.2  # of the baseline's seconds, with 1 worker
MOST_SHARED = {("many_pods", 4): 0.7, ("many_ticks", 4): 0.75, ("long_lines", 4): 0.7}  # of the seconds with 1 worker
MOST_OF_ONE = 1.05  # of the seconds with 1 worker, with any number
STEEPEST = 1.05
NO_WORKERS = 0  # the baseline's key among the workers


class Trace(NamedTuple):
    pods: int
    ticks: int
    containers: int
    size: int   # bytes
    lines: int  # as the baseline prints them, None for a trace that it does not read


class Measured(NamedTuple):
    """Of each trace and number of workers the least seconds and the greatest peak of memory in bytes."""
    traces: dict   # by name
    rounds: int
    seconds: dict
    peaks: dict
    floor: int     # bytes that no peak is below


class Machine(NamedTuple):
    words: str     # what the machine has
    kit: str
    compiler: str
    reader: str    # the version of serde_json


def counts_in(report):
    """How many pods, ticks and containers a report has, by its lines."""
    pods, ticks = map(int, re.fullmatch(r"node \S+ pods=(\d+) ticks=(\d+)\n", next(report)).groups())
    return pods, ticks, sum(line.startswith("container ") for line in report)


def most_memory(trace):
    """The limit of memory in bytes: the input, what each tick adds and what the program needs in addition."""
    return trace.size + 48 * trace.pods * trace.ticks + 24 * trace.containers * trace.ticks + 32 * MIB


def slope_of(measured):
    """How fast the logarithm of the seconds rises with the logarithm of the ticks."""
    ticks = [math.log(measured.traces[name].ticks) for name in SLOPE]
    return statistics.linear_regression(ticks, [math.log(measured.seconds[name, 1]) for name in SLOPE]).slope


def paragraph(words):
    return textwrap.fill(words, 116, break_long_words=False, break_on_hyphens=False)


def manner(measured, machine):
    """How it was measured."""
    return [
        "## Compared with a plain parser", "",
        "`bench/speed --write` measures this section and writes it.",
        f"The machine: {machine.words}; the kit: `{machine.kit}`.", "",
        paragraph(
            f"The baseline is a plain Rust program (`bench/baseline`, {machine.compiler}, serde_json {machine.reader})"
            " that reads each line of the same trace into a `serde_json::Value` and drops it. The script runs the"
            " program as `run TRACE --workers N`, with its report in a file. The two run alternately. The tables have"
            f" the least seconds and the greatest peak of memory of {measured.rounds} rounds. The script itself has a"
            f" peak of {measured.floor / 1e6:.1f} MB, so no lower peak shows. The reports of a trace are the same with"
            " any number of workers, byte for byte."), ""]


def names_of(workers):
    return "baseline" if workers == NO_WORKERS else "1 worker" if workers == 1 else f"{workers} workers"


def head(columns):
    return ["| " + " | ".join(columns) + " |", "|" + "---|" * len(columns)]


def row(cells):
    return "| " + " | ".join(cells) + " |"


def traces_table(traces):
    rows = head(("Trace", "pods", "ticks", "containers", "MB", "lines"))
    for name in TRACES:
        pods, ticks, containers, size, lines = traces[name]
        numbers = f"{pods:,}", f"{ticks:,}", f"{containers:,}", f"{size / 1e6:,.1f}", f"{lines:,}"
        rows.append(row([f"`{name}`", *numbers]))
    return rows


def speed_table(seconds):
    rows = head(("Seconds (times the baseline)", "baseline", *map(names_of, WORKERS)))
    for name in TRACES:
        least = seconds[name, NO_WORKERS]
        cells = [f"{seconds[name, workers]:.2f} ({seconds[name, workers] / least:.2f})" for workers in WORKERS]
        rows.append(row([f"`{name}`", f"{least:.2f}", *cells]))
    return rows


def memory_table(measured):
    rows = head(("Peak MB", "limit", "baseline", *map(names_of, WORKERS)))
    for name in TRACES:
        cells = [f"{measured.peaks[name, workers] / 1e6:.1f}" for workers in (NO_WORKERS, *WORKERS)]
        rows.append(row([f"`{name}`", f"{most_memory(measured.traces[name]) / 1e6:.1f}", *cells]))
    return rows


def slope_words(measured):
    some = [f"{measured.traces[name].ticks:,} ticks {measured.seconds[name, 1]:.2f}" for name in SLOPE]
    return paragraph(
        f"With 1 worker and pods={measured.traces[SLOPE[0]].pods} the seconds are: of {', of '.join(some)}. Their"
        f" logarithms rise {slope_of(measured):.3f} times as fast as the logarithms of the ticks.")


def workers_words(measured):
    """When more workers pay, which means that the quickest number of them saves a twentieth at least."""
    items, paying, idle = [], [], []
    for name in TRACES:
        shares = {workers: measured.seconds[name, workers] / measured.seconds[name, 1] for workers in WORKERS[1:]}
        pays = min(shares.values()) <= 0.95
        (paying if pays else idle).append(f"`{name}`")
        taken = ", ".join(f"{share:.2f} with {workers}" for workers, share in shares.items())
        items.append(f"- `{name}`, pods in a tick: {measured.traces[name].pods}. Of the time with 1 worker: {taken}. "
                     + ("More workers pay." if pays else "More workers do not pay."))
    paid = f"More workers pay in {' and '.join(paying) or 'none of these traces'}"
    paid += f", and not in {' or '.join(idle)}." if paying and idle else "."
    return [paragraph(paid + " They share the lines of windows of the text, the largest of 4 MiB, and the pods of each"
                      " round. A round has the ticks up to the next in which the node acts on an eviction threshold, or"
                      " until 32,768 updates wait. Threads start again for each. One thread takes the contents of the"
                      " lines in order. One thread also makes a round of less than 2,048 updates, as each in"
                      " `pressed_pods`, where the node acts on a threshold in every tick."), "",
            paragraph("An update is what one pod takes of one tick. A worker starts if it has 1,024 updates. In a"
                      " sketch in Rust with pieces, updates and a lock of this size (0.23 microseconds an update,"
                      " without JSON)"
                      " two threads paid from some 1,200 updates, four from some 1,600."),
            "", *items]


def aims(measured):
    """Each aim with what was measured, and whether it is held."""
    seconds = measured.seconds
    for name in TRACES:
        ratio = seconds[name, 1] / seconds[name, NO_WORKERS]
        yield f"`{name}` with 1 worker: at most {MOST_ALONE} of the baseline", f"{ratio:.2f}", ratio <= MOST_ALONE
    for (name, workers), most in MOST_SHARED.items():
        ratio = seconds[name, workers] / seconds[name, 1]
        yield f"`{name}` with {workers} workers: at most {most} of 1 worker", f"{ratio:.2f}", ratio <= most
    for name in TRACES:
        ratio = max(seconds[name, workers] for workers in WORKERS) / seconds[name, 1]
        yield f"`{name}`: never above {MOST_OF_ONE} of 1 worker", f"{ratio:.2f}", ratio <= MOST_OF_ONE
    slope = slope_of(measured)
    yield f"the slope over the ticks: at most {STEEPEST}", f"{slope:.3f}", slope <= STEEPEST
    for name in TRACES:
        peak, most = max(measured.peaks[name, workers] for workers in WORKERS), most_memory(measured.traces[name])
        yield f"`{name}`: the peak within the limit of memory", f"{peak / most:.2f} of it", peak <= most


def text_of(measured, machine):
    """The whole section."""
    rows = [row([aim, found, "held" if held else "not held"]) for aim, found, held in aims(measured)]
    return "\n".join([
        *manner(measured, machine), *traces_table(measured.traces), "",
        "### Seconds", "", *speed_table(measured.seconds), "", slope_words(measured), "",
        "### When more workers pay", "", *workers_words(measured), "",
        "### Memory", "",
        "The limit is the input, 48 bytes for a pod and tick, 24 for a container and tick, and 32 MiB.", "",
        *memory_table(measured), "",
        "### Aims", "", *head(("Aim", "measured", "")), *rows]) + "\n"


def with_section(page, section):
    """The page with this section in the place of the last one."""
    before, begin, rest = page.partition(BEGIN)
    _, end, after = rest.partition(END)
    if not begin or not end:
        raise ValueError(f"the page has no lines {BEGIN.strip()} and {END.strip()}")
    return f"{before}{begin}{section}{end}{after}"
