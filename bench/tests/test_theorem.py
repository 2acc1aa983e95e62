"""Tests of bench/theorem. theorem/small is a repository with the pages that belong to it; each folder of theorem/faults
has files that are laid over it, and the file `said` with what bench/theorem --check then prints on standard error. The
names of their sources end in `.text`, since the gate accepts a crate's sources only in crates/."""
import os
import re
import tempfile

from common import SMALL, TESTS, Case, lay_over, read, run, write
import entries
import first_page
import links
import pages
import reach
from writers import theorem

FAULTS = os.path.join(TESTS, "theorem/faults")
NAMING = ("rules.md", "formats.md", "extended.md", "report.md")
CRATES = ("kubelet_replay", "grading", "text", "marks")
PAGES = ("theorem.md", *(f"theorem/{crate}.md" for crate in CRATES), *NAMING)
GRADE = "crates/grading/specs/rule/Grade.antt"


def keys_of(crate, **counts):
    """A crate's modules, each with this many keys; a module `name_rt` is one of types."""
    return {pages.module_of((crate, name.replace("_", "."), "")):
            [(crate, name.replace("_", "."), str(number)) for number in range(count)] for name, count in counts.items()}


def length(keys):
    """As if each definition had 100 lines."""
    return 100 * len(keys)


class Private(Case):
    """Private fields of types, and the definitions that name them."""

    def faults(self, text):
        nodes = {}
        for kind, name, words, below in (("type", "Share", "pub struct Share {\n    held: u64,\n}", []),
                                         ("type", "Other", "pub struct Other {\n    pub held: u64,\n}", []),
                                         ("definition", "of_other", "of_other o = o.held", ["Other"]),
                                         ("definition", "of_share", text, ["Share"])):
            node = reach.Node(kind, "marks", "lib.rt", name, "", words, "lib.rt", 1,
                              [("marks", "lib.rt", other) for other in below])
            nodes[node.key] = node
        return theorem.private_in(nodes)

    def test_a_field_of_the_same_name_in_another_type_does_not_count(self):
        self.assertEqual(self.faults("of_share s = 0"),
                         ["lib.rt:1: the field held of Share is private, and no definition names it"])
        self.assertEqual(self.faults("of_share s = s.held"), [])


class Pages(Case):
    """Which pages a crate has, where each definition has 100 lines."""

    def pages(self, **counts):
        """The names of the pages, each with how many definitions it has."""
        made = pages.pages_of_crate("text", keys_of("text", **counts), length)
        return [(page.name, len(page.keys)) for page in made]

    def test_a_crate_that_fits_has_one_page(self):
        self.assertEqual(self.pages(Sheet=2, Letter=1, lib_rt=1), [("theorem/text.md", 4)])

    def test_the_longest_modules_have_their_own_until_the_others_fit(self):
        self.assertEqual(self.pages(Letter=1, Sheet=3, Line=1, lib_rt=1),
                         [("theorem/text.md", 3), ("theorem/text-Sheet.md", 3)])
        self.assertEqual(self.pages(Sheet=4, Line=1, lib_rt=4),
                         [("theorem/text-Sheet.md", 4), ("theorem/text.md", 1), ("theorem/text-types.md", 4)])

    def test_a_page_that_is_still_too_long_has_parts(self):
        self.assertEqual(self.pages(Sheet=9),
                         [("theorem/text.md", 4), ("theorem/text-2.md", 4), ("theorem/text-3.md", 1)])
        self.assertEqual(self.pages(Line=1, Sheet=5),
                         [("theorem/text.md", 1), ("theorem/text-Sheet.md", 4), ("theorem/text-Sheet-2.md", 1)])

    def test_a_definition_that_is_too_long_stands_alone(self):
        self.assertEqual(pages.cut(["a", "bb", "c"], lambda keys: 300 * len("".join(keys))), [["a"], ["bb"], ["c"]])

    def test_titles(self):
        titles = [page.title for page in pages.pages_of_crate("text", keys_of("text", Line=1, Sheet=5), length)]
        self.assertEqual(titles, ["text", "text, Sheet, part 1", "text, Sheet, part 2"])


class Links(Case):
    def test_a_sentence_that_moves_keeps_its_links(self):
        text = "[a](#b) [c](formats.md#d) [e](../README.md) [f](https://g.example/h)"
        self.assertEqual(entries.moved(text, "rules.md", "theorem/text.md"),
                         "[a](../rules.md#b) [c](../formats.md#d) [e](../../README.md) [f](https://g.example/h)")
        self.assertEqual(entries.moved("[a](#b) [c](formats.md)", "rules.md", "theorem.md"),
                         "[a](rules.md#b) [c](formats.md)")

    def test_links_of_a_document(self):
        text = "[a](theorem/text.md#b) [`c`](../README.md) `[d](e)`\n```\n[f](g)\n```\n[h]: #i\n"
        self.assertEqual(list(links.links_in(text, "docs/rules.md")),
                         [(1, "docs/theorem/text.md", "b"), (1, "README.md", None), (5, "docs/rules.md", "i")])


class Reading(Case):
    def test_files_for_one_condition(self):
        keys = first_page.READY, ("probes", "Container", "IsInstanceReady"), ("manifest", "pod.rt", "PodSpec")
        nodes = {key: reach.Node(kind, *key, "", "", "file", 1, list(below)) for key, kind, below in (
            (keys[0], "definition", keys[1:]), (keys[1], "definition", keys[2:]), (keys[2], "type", ()),
            (("probes", "Container", "Other"), "definition", ()))}
        anchors = {f"theorem/{key[0]}.md": {key: "of-it", pages.module_of(key): "module"} for key in keys}
        self.assertEqual(first_page.reading(nodes, anchors)[2:], [
            "1. [pod_state, Pods](theorem/pod_state.md#module): `AreContainersReady`",
            "1. [probes, Container](theorem/probes.md#module): `IsInstanceReady`", ""])
        self.assertEqual(first_page.reading({}, anchors), [])


class Theorem(Case):
    def setUp(self):
        self.top = self.enterContext(tempfile.TemporaryDirectory())
        lay_over(SMALL, self.top)

    def has_the_pages(self):
        """The pages are the ones of theorem/small, and no others."""
        for page in PAGES:
            self.assertEqual(read(self.top, "docs", page), read(SMALL, "docs", page))
        self.assertEqual(len(os.listdir(os.path.join(self.top, "docs/theorem"))), len(CRATES))

    def test_pages_are_written_where_they_are_missing_or_have_no_links(self):
        os.remove(os.path.join(self.top, "docs/theorem.md"))
        for crate in CRATES:
            os.remove(os.path.join(self.top, f"docs/theorem/{crate}.md"))
        os.rmdir(os.path.join(self.top, "docs/theorem"))
        for page in NAMING:
            write(read(self.top, "docs", page).partition("\n<!--")[0], self.top, "docs", page)
        self.assertEqual(run("pages theorem", "--top", self.top), (0, "", ""))
        self.has_the_pages()

    def test_a_line_more_above_a_definition_changes_no_page(self):
        for path in (GRADE, "crates/kubelet_replay/src/lib.rt"):
            write(read(self.top, path).replace("\n\n", "\n\n\n", 1), self.top, path)
        for script in ("theorem", "calls"):
            self.assertEqual(run(script, "--check", "--top", self.top)[::2], (0, ""))

    def test_a_page_that_no_definition_has_is_removed(self):
        write("# The crate gone\n", self.top, "docs/theorem/gone.md")
        self.assertEqual(run("pages theorem", "--top", self.top), (0, "", ""))
        self.has_the_pages()

    def test_a_missing_page_is_said(self):
        os.remove(os.path.join(self.top, "docs/theorem/text.md"))
        status, _, said = run("pages theorem", "--check", "--top", self.top)
        self.assertEqual((status, said),
                         (1, "bench/theorem: docs/theorem/text.md is missing: run bench/theorem\n"))

    def test_a_trait_that_another_crate_hands_on(self):
        os.mkdir(os.path.join(self.top, "crates/grading/src"))
        write("//! Grades.\n\npub use marks::Source;\n", self.top, "crates/grading/src/lib.rt")
        lib = read(self.top, "crates/kubelet_replay/src/lib.rt")
        write(lib.replace("use marks::Source;", "use grading::Source;"), self.top, "crates/kubelet_replay/src/lib.rt")
        self.assertEqual(run("pages theorem", "--check", "--top", self.top)[::2], (0, ""))

    def test_a_long_module_has_pages_with_parts(self):
        """Eighty definitions, which one names, in a module next to that which is there."""
        names = [f"mark_{number}" for number in range(80)]
        write("".join(["-- Many.\n", "use Rattle.std.specs.Prelude.{ℕ, List, ◌∷◌, []}\n\n",
                       *(f"abbrev pub {name} : ℕ\n{name} = 0\n\n" for name in names),
                       f"abbrev pub all_marks : List ℕ\nall_marks = {' ∷ '.join(names)} ∷ []\n"]),
              self.top, "crates/grading/specs/rule/Many.antt")
        grade = read(self.top, GRADE).replace("\n\n", "\nuse Rattle.grading.specs.rule.Many.{all_marks}\n\n", 1)
        write(grade + "  pub all : p ≡ length all_marks\n", self.top, GRADE)
        self.assertEqual(run("pages theorem", "--top", self.top), (0, "", ""))
        self.assertEqual(run("pages theorem", "--check", "--top", self.top)[::2], (0, ""))
        texts = {name: read(self.top, "docs/theorem", name) for name in os.listdir(f"{self.top}/docs/theorem")}
        self.assertEqual(sorted(texts), sorted([*(f"{crate}.md" for crate in CRATES), "grading-Many.md",
                                                "grading-Many-2.md"]))
        self.assertLessEqual(max(text.count("\n") for text in texts.values()), pages.MOST)
        found = [name for text in texts.values() for name in re.findall(r"^### `(mark_\d+)`$", text, re.M)]
        self.assertEqual(sorted(found), sorted(names))
        self.assertIn("[all_marks](grading-Many.md#all_marks)", texts["grading.md"])
        self.assertIn("[mark_0](#mark_0)", texts["grading-Many.md"])
        self.assertIn("[mark_79](grading-Many-2.md#mark_79)", texts["grading-Many.md"])
        self.assertIn("- [grading, Many, part 2](theorem/grading-Many-2.md): Many\n",
                      read(self.top, "docs/theorem.md"))

    def test_a_page_that_cannot_be_cut_is_said(self):
        write(read(self.top, GRADE) + "  pub more : p ≡ 1\n" * pages.MOST, self.top, GRADE)
        self.assertEqual(run("pages theorem", "--top", self.top),
                         (1, "", f"bench/theorem: docs/theorem/grading.md has more than {pages.MOST} lines\n"))

    def test_faults_are_said(self):
        for name in sorted(os.listdir(FAULTS)):
            with self.subTest(name), tempfile.TemporaryDirectory() as copy:
                lay_over(SMALL, copy)
                lay_over(os.path.join(FAULTS, name), copy)
                status, _, said = run("pages theorem", "--check", "--top", copy)
                self.assertEqual((status, said), (1, read(FAULTS, name, "said")))
