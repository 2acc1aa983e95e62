"""The tests of what tools/import makes of a real kubelet's log, compared with what that kubelet did. The log comes from
a run of 305 s at -v=4, cut to a verbosity; docs/import.md has the counts."""

import os
import tempfile

import cases
from checks import HERE, REPLAY, TOOLS, TOP, expect, expect_kept, read, run

import counted
import from_log
import import_counts

load_tests = cases.loaded(__name__)

RECORDING = f"{HERE}/recordings/imported_journal"
PAGE = f"{TOP}/docs/import.md"
LEVELS = (2, 4)
# each of these is in the trace within two seconds, of so many of a hundred
WANTED = {2: {"starts": 95, from_log.ANY_CODE: 90, "kills by a liveness probe": 98, "ready": 95, "unready": 95,
              "evictions shown as a fact": 100},
          4: {"starts": 99, from_log.ANY_CODE: 98, "exits with their codes": 96, "kills by a liveness probe": 98,
              "ready": 98, "unready": 95, "evictions shown as a fact": 100}}


def test_import_of_a_real_log():
    """Counted again, as docs/import.md has it; no exit has a false code that is not marked as guessed, and the rules
    evict nobody."""
    os.environ.setdefault("KUBELET_REPLAY", REPLAY)
    before, _, rest = read(PAGE).partition("<!-- the counts -->\n")
    _, _, after = rest.partition("<!-- end of the counts -->\n")
    tables = []
    for level in LEVELS:
        found = import_counts.imported(RECORDING, level, REPLAY)
        for row in found.rows:
            share = WANTED[level].get(row.name)
            if share is not None:
                expect(f"import at -v={level}: {row.name}", 100 * row.near >= share * row.real, True)
        expect(f"import at -v={level}: {from_log.MARKED}", found.unmarked, [])
        false = [row.false for row in found.rows if row.name == "evictions by the rules"]
        expect(f"import at -v={level}: evictions by the rules", false, [0])
        tables += [f"-v={level}", *counted.table_of(found.rows), ""]
    kept = "\n".join(tables).rstrip()
    expect_kept("import: the counts in docs", f"{before}<!-- the counts -->\n```\n{kept}\n```\n"
                f"<!-- end of the counts -->\n{after}", PAGE)


def test_tools_over_an_imported_trace():
    """Each tool takes it; the rules can't judge an eviction, since no journal has what pods use."""
    with tempfile.TemporaryDirectory() as folder:
        log = from_log.at_level(import_counts.read_lzma(f"{RECORDING}/kubelet.log.xz"), 2)
        status, trace, _ = run([f"{TOOLS}/import", "--pods", f"{RECORDING}/pods.json", "--year", "2026"], log)
        path = f"{folder}/node.trace"
        with open(path, "w", encoding="utf-8") as file:
            file.write(trace)
        told = run([f"{TOOLS}/kubelet-replay", "story", "-f", path, "shop/livetrap"])
        nothing = "the rules can't judge it; no journal has what pods use of the node"
        expect("story of an imported trace", (status, told[0], told[2], nothing in told[1].split("\n")),
               (0, 0, "", True))
        for words in ("why -f TRACE shop/oomer", "page -f TRACE", "timeline -f TRACE", "json -f TRACE",
                      f"fleet run TRACE --out {folder}/fleet.db"):
            answer = run([f"{TOOLS}/kubelet-replay", *words.replace("TRACE", path).split()])
            expect(f"{words.split()[0]} of an imported trace", (answer[0], bool(answer[1])), (0, True))
