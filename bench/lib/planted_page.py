"""The page docs/planted.md, from bench/planted.tsv and bench/edits.tsv: the results of `rt plant` by crate, why the
proved mistakes change no answer, and what each edit of the gate alone shows."""
import csv
import io

from gate_edits import WORDS, lines_of_edits
from paragraphs import wrapped

COLUMNS = ("crate", "what", "refused", "proved", "not judged", "not writable", "since", "date",
           "why what is proved is right")
COUNTS = COLUMNS[2:6]
TITLES = ("Crates", "Rejected", "Proved", "Not judged", "Not writable", "Last run", "Changed since")
HEAD = ("""
Which mistakes in the bodies of functions the prover rejects, for whoever changes a contract or an edit of the gate.
`bench/planted` writes this page from `bench/planted.tsv` and `bench/edits.tsv`.
""", """
`rt plant`, run manually, puts mistakes into the bodies of a crate's functions, one at a time, and checks each. The
prover rejects it, proves it, or can't judge it; some mistakes `rt plant` can't write. It plants none in definitions, in
laws, or inside a loop. A proved mistake needs a reason why it changes no answer. In all, {refused} were rejected,
{proved} proved, {not judged} not judged, and {not writable} not writable. `bench/planted.tsv` has what each run
covered.
If a function has changed since its run, nobody planted it again. The last column names code that came later: the
words `failed`, `judged`, `spared` and `waiting`; the gates, which are readiness gates, pod resources and
`crashLoopBackOff`; containers' own policies and rules of restarts; and resizes.
""", """
A rejection shows less if the search for a proof reached a limit: it found no counterexample, and a longer search might
find a proof. By the log of the last whole run of the gate, of 60 edits, this holds for 16. A rejection shows nothing about the contract if a
stored answer of `proofs/` no longer fits. This holds for most mutants of `node_rounds`, for mutants of the second
container in `events_of` of `pod_state`, and for some of `update_in_place` of `pod_piece`. No clause is known to be too
weak there: of 105 wrong bodies written for these crates, none that was proved changes an answer.
""")


def rows_in(text):
    """The rows of the table, each by its columns. Another head, or a count that is none, is a ValueError."""
    found = list(csv.reader(io.StringIO(text), delimiter="\t", quoting=csv.QUOTE_NONE))
    if tuple(found[0]) != COLUMNS:
        raise ValueError(f"bench/planted.tsv: the columns are not {', '.join(COLUMNS)}")
    rows = []
    for number, cells in enumerate(found[1:], 2):
        if len(cells) != len(COLUMNS):
            raise ValueError(f"bench/planted.tsv:{number}: {len(cells)} cells, not {len(COLUMNS)}")
        row = dict(zip(COLUMNS, cells))
        for column in COUNTS:
            if row[column] and not row[column].isdigit():
                raise ValueError(f"bench/planted.tsv:{number}: {row[column]} is no number of {column}")
        if int(row["proved"] or 0) and not row[COLUMNS[-1]]:
            raise ValueError(f"bench/planted.tsv:{number}: what is proved of {row['crate']} has no reason that it is "
                             "right")
        rows.append(row)
    return rows


def lines_without(rows, crates):
    """The sentence on the crates that no run on record covers, and these, storey by storey."""
    covered = {name for row in rows for name in row["crate"].split()}
    storeys = {}
    for crate in crates:
        if crate.name not in covered:
            storeys.setdefault(crate.storey, []).append(f"`{crate.name}`")
    number = sum(map(len, storeys.values()))
    if not number:
        return ["Some run on record covers each crate."]
    said = f"No run on record covers {'this crate' if number == 1 else f'these {number} crates'}, so none shows what " \
           "the prover rejects there:"
    return [said, "", *(wrapped(f"{storey}: {', '.join(names)}", "- ", "  ") for storey, names in storeys.items())]


def line_of(cells):
    return f"| {' | '.join(cells)} |"


def runs_by_crates(rows):
    """The rows of each crate, or of the crates that one run covered, in order."""
    found = {}
    for row in rows:
        found.setdefault(row["crate"], []).append(row)
    return found


def sums_of(rows):
    """How many mistakes the rows have of each kind."""
    return {column: sum(int(row[column] or 0) for row in rows) for column in COUNTS}


def line_of_runs(crates, rows):
    """A line with the sums of the rows, the date of the last one, and what changed since."""
    names = ", ".join(f"`{crate}`" for crate in crates.split())
    changed = ", ".join(dict.fromkeys(row["since"] for row in rows if row["since"]))
    return line_of([names, *map(str, sums_of(rows).values()), max(row["date"] for row in rows), changed])


def page_of(rows, edits, spent, crates):
    """The text of the page of these crates, with the processor seconds that the edits of each take if they are
    known."""
    head = [wrapped(paragraph.format(**sums_of(rows))) for paragraph in HEAD]
    table = [line_of(TITLES), line_of(["---"] * len(TITLES))]
    table += [line_of_runs(crates, of_crates) for crates, of_crates in runs_by_crates(rows).items()]
    reasons = [wrapped(f"`{row['crate']}`: {row[COLUMNS[-1]]}.", "- ", "  ") for row in rows if row[COLUMNS[-1]]]
    parts = ["# What was planted", *head, "\n".join(table), "\n".join(lines_without(rows, crates)),
             "Why the proved mistakes change no answer:", "\n".join(reasons),
             "## What each edit of the gate alone shows", wrapped(WORDS), "\n".join(lines_of_edits(edits, spent))]
    return "\n\n".join(parts) + "\n"
