"""Tests of bench/calls, over the repository theorem/small with the pages that belong to it, and of what it reads."""
import os
import tempfile

from common import SMALL, Case, lay_over, read, run, write
import antt
import call_entries
import call_pages
import named_calls
import public
from public import Clause

PAGES = ("calls.md", *(f"calls/{storey}.md" for storey in ("base", "format", "rules", "threads", "program")))
LIB = "crates/kubelet_replay/src/lib.rt"
SOURCE = """\
//! Lists.

/// A list
/// of items.
#[derive(Drop)]
pub struct Items<T: Drop> {
    pub items: Vec<T>,
}

impl<T: Drop> Items<T> {
    /// Adds an item.
    pub fn push(&mut self, item: T) -> Result<(), AllocError>
        requires room { few self.old }
        // What it was is kept.
        ensures ok { OnOk result (self.new ≡ record { items = self.old ++ item ∷ [] }) }
        ensures { OnErr result (self.new ≡ self.old) }
    {
        self.items.push(item)
    }

    fn hidden(&self) {}
}

impl<T: Drop> fmt::Display for Items<T> {
    fn fmt(&self, out: &mut Formatter) -> Result<(), Error>
        ensures { result ≡ Ok tt }
    {
        Ok(())
    }
}

/// What reads.
pub trait Reader {
    /// Reads three.
    fn three(&self) -> [u8; 3]
        ensures { result ≡ three };
}

pub const MOST: usize = 16;

fn hidden() {}
"""


class Reading(Case):
    """What is read of a file."""

    def test_items_of_a_file(self):
        items = public.items_in(SOURCE, "lib.rt")
        self.assertEqual([(item.kind, item.whole_name, item.line) for item in items], [
            ("struct", "Items", 6), ("fn", "Items::push", 12), ("fn", "Items as Display::fmt", 25),
            ("trait", "Reader", 33), ("fn", "Reader::three", 35), ("const", "MOST", 39)])
        self.assertEqual(items[0].comment, "A list\nof items.")
        self.assertEqual(items[1].clauses, [
            Clause("requires", "room", "few self.old"),
            Clause("ensures", "ok", "OnOk result (self.new ≡ record { items = self.old ++ item ∷ [] })"),
            Clause("ensures", "", "OnErr result (self.new ≡ self.old)")])
        self.assertEqual(items[4].head, "fn three(&self) -> [u8; 3]")
        self.assertEqual(items[4].clauses, [Clause("ensures", "", "result ≡ three")])

    def test_what_a_call_refuses_with(self):
        for head, error in (("fn a() -> Result<(), AllocError>", "AllocError"),
                            ("fn a() -> Result<Vec<(u8, u8)>, Fault<A, B>>", "Fault<A, B>"),
                            ("fn a(b: Result<u8, Fault>) -> u8", None), ("fn a()", None)):
            self.assertEqual(call_entries.error_of(head), error)

    def test_a_law_needs_no_body_of_its_own_line(self):
        items = public.items_in("/// It is so.\npub fn law()\n    ensures { laws.ItIsSo }\n{}\n", "laws.rt")
        self.assertEqual([(item.name, item.clauses) for item in items], [
            ("law", [Clause("ensures", "", "laws.ItIsSo")])])


    def test_definitions_below_a_line_of_their_own(self):
        read = antt.read_module("""\
-- Trees.
use Rattle.std.specs.Prelude.{ℕ}

-- how many leaves
abbrev mutual
  pub leaves : Tree → ℕ
  leaves (node trees) = all_leaves trees

  pub all_leaves : Trees → ℕ
  all_leaves none = 0

module _ {A : Type 0} where
  -- of a list
  abbrev pub first : List A → Option A
  first items = head items
""", lambda scope, word: False)
        self.assertEqual([(found.name, found.comment, found.line) for found in read.definitions], [
            ("leaves", "how many leaves", 6), ("all_leaves", "", 9), ("first", "of a list", 14)])
        self.assertEqual(read.comment, "Trees.")


class Shown(Case):
    """How a call is shown."""

    def test_clauses_of_a_refusal(self):
        ok, err = Clause("ensures", "ok", "OnOk result a"), Clause("ensures", "err", "OnErr result (b ≡ c)")
        both = Clause("ensures", "", "d ≡ e")
        for clauses, said in (([ok], "Clause, of `Ok` alone: `ok`."), ([both], "Clause, of both: one."),
                              ([ok, err], "Clauses: of `Ok` `ok`; of an error `err`: `b\0≡\0c`."),
                              ([ok, both], "Clauses: of `Ok` `ok`; of both one."), ([], "No clause.")):
            self.assertEqual(call_entries.promises(clauses, "Fault"), said)
        self.assertEqual(call_entries.promises([both], None), "Clause: one.")

    def test_what_a_call_needs(self):
        long = Clause("requires", "low", " ≤ ".join("a" * 30))
        self.assertEqual(call_entries.needs([Clause("requires", "", "0 < a"), long, long._replace(name="")]),
                         "Needs `0\0<\0a`, `low`, a condition.")
        self.assertEqual(call_entries.needs([Clause("ensures", "", "a")]), "")

    def test_comments(self):
        self.assertEqual(call_entries.comment_in("The first of\n[`a < b`](crate::a)s, a < b"),
                         "The first of `a < b`s, a &lt; b.")
        text = "Two\nlines.\n\nA list:\n\n- one\n- two\n  lines\n\n```text\n a\n\n```"
        self.assertEqual(call_entries.module_lines(text), [
            "Two lines.", "", "A list:", "", "- one.", "- two lines.", "", "```text", " a", "", "```", ""])

    def test_no_line_begins_as_an_item(self):
        text = call_entries.folded(f"{'a' * 110} 2^63 - 1", "- ", "  ")
        self.assertNotIn("\n  -", text)
        self.assertEqual(text.split()[-3:], ["2^63", "-", "1"])


class Named(Case):
    def test_what_no_source_has(self):
        """Methods, fields, variants and functions of a module that a page names; not those of other libraries."""
        with tempfile.TemporaryDirectory() as top:
            os.makedirs(f"{top}/crates/marks/src")
            os.makedirs(f"{top}/docs")
            write("pub enum Grade {\n    Good,\n    Bad(u64),\n}\n\nimpl Grade {\n    pub fn of(mark: u64) -> Grade {\n"
                  "        Grade::Good\n    }\n}\n\npub struct Mark {\n    pub held: u64,\n}\n", top,
                  "crates/marks/src/grade.rt")
            write("`Grade::of`, `Grade::Bad`, `Mark::held`, `marks::of`, `grade::of` and `std::mem` are there.\n"
                  "`Grade::gone` and `Mark::of` are not, nor is `marks::gone`.\n", top, "docs/a.md")
            write("`Other::of` was there.\n", top, "CHANGELOG.md")
            self.assertEqual(named_calls.faults(top), [f"docs/a.md:2: no source has `{name}`" for name in (
                "Grade::gone", "Mark::of", "marks::gone")])


class Calls(Case):
    def setUp(self):
        self.top = self.enterContext(tempfile.TemporaryDirectory())
        lay_over(SMALL, self.top)

    def check(self):
        status, _, said = run("pages calls", "--check", "--top", self.top)
        return status, said

    def test_pages_are_written_anew(self):
        self.assertEqual(self.check(), (0, ""))
        os.remove(f"{self.top}/docs/calls.md")
        write("# Calls\n", self.top, "docs/calls/base.md")
        write("# Calls\n", self.top, "docs/calls/gone.md")
        self.assertEqual(self.check(), (1, "".join(f"bench/calls: docs/{said}: run bench/calls\n" for said in (
            "calls/base.md is stale", "calls.md is missing", "calls/gone.md has no crate"))))
        self.assertEqual(run("pages calls", "--top", self.top), (0, "", ""))
        self.assertEqual(len(os.listdir(f"{self.top}/docs/calls")), len(PAGES) - 1)
        for page in PAGES:
            self.assertEqual(read(self.top, "docs", page), read(SMALL, "docs", page))

    def test_a_public_call_without_a_comment(self):
        write(read(self.top, LIB).replace("/// Grades a sheet in a format.\n", ""), self.top, LIB)
        self.assertEqual(run("pages calls", "--top", self.top), (
            1, "", f"bench/calls: {LIB}:31: the public call replay_in has no doc comment\n"))

    def test_an_example_of_no_definition(self):
        write(read(self.top, "docs/examples.tsv") + "text.Sheet.gone\tnothing\t\n", self.top, "docs/examples.tsv")
        self.assertEqual(self.check(), (1, "bench/calls: docs/examples.tsv: there is no definition text.Sheet.gone\n"))

    def test_links_to_the_pages(self):
        write("[a](calls/base.md#marks) [b](calls/base.md#gone) [c](calls/gone.md)\n", self.top, "docs/other.md")
        self.assertEqual(self.check(), (1, "bench/calls: docs/other.md:1: docs/calls/base.md has no place #gone\n"
                                           "bench/calls: docs/other.md:1: there is no page docs/calls/gone.md\n"))

    def test_a_storey_has_parts(self):
        sections = [(name, [""] * count) for name, count in (("a", 200), ("b", 200), ("c", 200), ("d", 90))]
        self.assertEqual(call_pages.parts_of("Base", sections), [
            ("calls/base.md", "Base, part 1", ["a", "b"]), ("calls/base-2.md", "Base, part 2", ["c", "d"])])
        self.assertEqual(call_pages.parts_of("Base", sections[:1]), [("calls/base.md", "Base", ["a"])])
