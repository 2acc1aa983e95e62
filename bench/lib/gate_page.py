"""The page on what the gate costs, docs/gate.md, from given figures."""
import os
import textwrap

import script
from gate_figures import WHOLE, edits_of, gate_seconds, longest_chain, since, unchanged_between
from shelf import COLUMNS, read_found, untried_text

PAGE = "docs/gate.md"
HEAD = """\
# What the gate costs

What it costs to prove everything, crate by crate, for whoever plans a change or a machine. `bench/gate` writes this
page from what it measured; only some sums over mutants, named below, were put together manually.

In new clones of the commit, which no run has touched, `bench/gate` runs `rt ci NAME` for each crate, and then `./test`.
The commands run one after the other in the order of `crates.txt`, or several at once if the line of the machine has
that. For a crate with edits the command runs first without them, and then with them, which tries only the edits. Each
command is timed as a whole, and nothing inspects it while it runs.

- Seconds are clock time.
- Processor seconds, user and system, are of the command and of all processes below it that it waited for, as the
  operating system reports at their end (`wait4`).
- Peak memory is of the largest single process (`ru_maxrss`), and no sum.

{machine}

{whole}

The kit keeps what passed on the machine, so each command proves only its own crate, with its tests and its edits. The
tests and the programs of the crates below run again. The column *again* has the cost of that: the processor seconds of
the same command if everything is kept, from `bench/gate --again`. They are a part of the processor seconds, twice for a
crate with edits. A crate that was kept has the figures of the run that proved it last, and `bench/gate.tsv` has the
commit of each. Other work on the machine, also in other checkouts, may have run at the same time: that makes processors
slower ([working.md](working.md#the-figures-of-the-gate) has how these figures were made).

{chain}

Lines are the lines of `src/`, `specs/` and `proofs/`, and edits are the mutants in `must-fail/`. The column *of edits*
has the edits' part of the processor seconds, or `-` if that was not measured. The last column shows whether the crate,
or a crate below it, has changed since it was measured.

"""
OUTSIDE = "## Mutants outside of the gate"
SHELF = OUTSIDE + """

What `bench/wrong_bodies` found in `crates/NAME/wrong-bodies/` in its last run over a crate: how many edits a clause
rejects, how many only a proof file rejects that no longer fits, and how many are proved. Seconds are the processor
seconds of all edits of the crate. A rejection by a clause also counts if the search for the clause's proof gave up at a
limit. If the edits of a crate were tried in parts, in clones with some of them each, its row is the sum of the parts,
put in manually.
"""
OF_SHELF = """\
| Crate | edits | by a clause | by a proof file only | still proved | seconds |
|---|---|---|---|---|---|"""
REPLAYS = "## What a replay costs"


def lines_of(top, name, part):
    total = 0
    for at, _, files in os.walk(f"{top}/crates/{name}/{part}"):
        for file in files:
            if file.endswith((".rt", ".antt")):
                with open(f"{at}/{file}", encoding="utf-8") as text:
                    total += sum(1 for _ in text)
    return total


def row(name, numbers, peak, changed="-"):
    return (f"| {name} | {' | '.join(f'{it:,}' if it != '-' else it for it in numbers)} | {peak / 1e9:.1f} GB "
            f"| {changed} |")


def table(top, crates, found):
    """A row for each crate, and one for their sum."""
    rows = ["| Crate | code | specs | proofs | edits | seconds | processor s | of edits | again | peak memory "
            "| changed |",
            "|---|---|---|---|---|---|---|---|---|---|---|"]
    sums, most = [0] * 8, 0
    for name in crates:
        counts = [*(lines_of(top, name, part) for part in ("src", "specs", "proofs")), edits_of(top, name)]
        if name not in found:
            rows.append(f"| {name} | {' | '.join(f'{it:,}' for it in counts)} | - | - | - | - | - | - |")
            sums = [a + b for a, b in zip(sums, [*counts, 0, 0, 0, 0])]
            continue
        figure = found[name]
        parts = [figure.edits, figure.again]
        numbers = [*counts, round(figure.seconds), round(figure.spent), *(round(it or 0) for it in parts)]
        sums, most = [a + b for a, b in zip(sums, numbers)], max(most, figure.peak)
        rows.append(row(name, [*numbers[:-2], *("-" if it is None else round(it) for it in parts)], figure.peak,
                        since(top, crates, name, figure.commit)))
    return [*rows, row("all", sums, most)]


def shelf(top):
    """What bench/wrong_bodies found last, if it was run, and what it has not tried."""
    rows = ["| " + " | ".join(it[column] for column in COLUMNS) + " |" for it in read_found(top)]
    if not rows:
        return []
    waiting = untried_text(top)
    return [SHELF, *([filled(waiting), ""] if waiting else []), OF_SHELF, *rows, ""]


def replays(ticks):
    """What bench/ticks printed."""
    return [
        REPLAYS, "",
        "`bench/ticks`, one pod with one container:", "",
        *(f"    {line}" for line in ticks.splitlines()), "",
        "Reading and following a pod grow linearly with the ticks: nothing scans earlier ticks.",
    ]


def minutes(seconds):
    return f"{seconds / 60:.1f}"


def filled(text):
    return textwrap.fill(text, 120, break_long_words=False, break_on_hyphens=False)


def whole_text(below, found):
    """The cost of the gate from nothing, and of ./test."""
    measured = [found[name] for name in below if name in found]
    missing = [name for name in below if name not in found]
    spent, gate = sum(it.spent for it in measured), gate_seconds(found, below)
    said = [f"The commands of all crates took {minutes(spent)} processor minutes in sum, and "
            f"{minutes(sum(it.seconds for it in measured))} minutes by the clock."]
    if missing:
        said.append(f"Not measured, and not in the sums: {', '.join(missing)}.")
    if WHOLE in found:
        run = found[WHOLE]
        anew = sum(it.commit == run.commit for it in measured)
        said.append(f"Of {len(below)} crates {anew} were proved again at the commit `{run.commit}`. `./test`, after "
                    f"them, ended in `{run.last}`, and took {minutes(run.seconds)} minutes, {minutes(run.spent)} "
                    f"processor minutes and {run.peak / 1e9:.1f} GB.")
    else:
        said.append("`./test` was not measured after them.")
    if gate is not None:
        said.append(f"{minutes(sum(it.ran_again() for it in measured))} minutes of the sum are for what the commands "
                    f"run again and `./test` runs once. So from nothing `./test` takes {minutes(gate)} processor "
                    "minutes.")
    return filled(" ".join(said))


def chain_text(below, found):
    """The sentence on the longest chain."""
    length, chain = longest_chain(found, below)
    steps = [f"{name} ({minutes(found[name].waited_for())})" for name in chain if name in found]
    return filled("A crate waits for those that `crates.txt` lists below it, and not for their edits. The longest "
                  f"chain takes {minutes(length)} processor minutes without edits: {', '.join(steps)}.")


def beside_text(top, below, before, found):
    """How much slower processors were than at an earlier table, by the crates that have not changed since, and what the
    gate would have taken then."""
    same = unchanged_between(top, before, found)
    if not same:
        raise script.Fault("no crate in both tables is unchanged")
    then, now = (sum(table[name].spent for name in same) for table in (before, found))
    ratios = sorted(found[name].spent / before[name].spent for name in same)
    sums, gate = sum(found[name].spent for name in below if name in found), gate_seconds(found, below)
    chain, _ = longest_chain(found, below)
    return filled(f"{len(same)} crates whose own files are as they were then ({', '.join(same)}) took {minutes(then)} "
                  f"processor minutes there and {minutes(now)} here, {now / then:.2f} times as much, single ones "
                  f"{ratios[0]:.2f} to {ratios[-1]:.2f} times. By that the {minutes(sums)} minutes of all are "
                  f"{minutes(sums * then / now)} of those, "
                  + (f"the {minutes(gate)} of `./test` from nothing {minutes(gate * then / now)}, " if gate else "")
                  + f"and the {minutes(chain)} of the longest chain {minutes(chain * then / now)}.")


def machines(found):
    """On what the figures were made."""
    pairs = dict.fromkeys((it.machine, it.kit) for it in found.values())
    return "\n".join(filled(f"The machine: {machine}; the kit: `{kit}`.") for machine, kit in pairs)


def text_of(top, below, found, told):
    """The whole page, with its part on a replay's costs."""
    head = HEAD.format(machine=machines(found), whole=whole_text(below, found), chain=chain_text(below, found))
    return head + "\n".join([*table(top, below, found), "", *shelf(top), *told]) + "\n"


def replays_in(page):
    """A page's part on a replay's costs."""
    _, begin, rest = page.partition(REPLAYS)
    return (begin + rest).splitlines()


def with_costs(page, top, ticks):
    """The page with its parts on mutants outside of the gate, and on a replay's costs, made again."""
    begin = OUTSIDE if OUTSIDE in page else REPLAYS
    return page.partition(begin)[0] + "\n".join([*shelf(top), *replays(ticks)]) + "\n"
