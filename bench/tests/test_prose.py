"""Tests of bench/prose: which text of a page it counts, its table and its bounds."""
import contextlib
import io
import os
import shutil
import tempfile
import unittest

from common import Case, commands_in, loaded, run, write
import prose_counts

PAGE = """\
# A heading stands here

The recorder writes one trace per hour. Read `what stands` in
[the guide](told.md):

    a block of code says
    much

- First item
- Second item, which goes
  on

| a table | says |
|---|---|

```text
told
```

> A quote.
[link]: told.md
"""
PASSIVE = "The trace was written by the recorder. "
ACTIVE = "The recorder writes a trace. "


class Prose(Case):
    def test_paragraphs_of_a_page(self):
        self.assertEqual([prose_counts.plain(paragraph) for paragraph in prose_counts.paragraphs_in(PAGE)], [
            "The recorder writes one trace per hour. Read Code in the guide.", "First item.",
            "Second item, which goes on.", "A quote."])

    def test_style_takes_the_whole_of_a_sentence(self):
        for text, plain in (("a trace: what was seen (all of it) ..", "A trace, what was seen all of it."),
                            ("It ends. 20 pods start. (So `run` reads it.)",
                             "It ends. N20 pods start. So Code reads it."),
                            ("Run it: The rest follows:", "Run it: The rest follows."),
                            ("A pod ends ([IsEnd], [a.Ends]).", "A pod ends.")):
            self.assertEqual(prose_counts.plain(text), plain)

    def test_house_words(self):
        found = [found[0] for found in prose_counts.HOUSE.finditer(
            "It stands behind those of the pod. Understand the connection refused, then it is refused.")]
        self.assertEqual(found, ["stands", "behind", "those of", "refused"])

    def test_bounds(self):
        good = prose_counts.Counts(words=190, sentences=10, passive=3, longest=40, house=[])
        self.assertEqual(list(loaded("prose").faults_of(good)), [])
        bad = prose_counts.Counts(words=200, sentences=10, passive=4, longest=41, house=["told", "anew", "told"])
        self.assertEqual(list(loaded("prose").faults_of(bad)), [
            "40 % of its sentences are passive; the bound is below 35 %",
            "a sentence has 20.0 words on average; the bound is below 20",
            "a sentence has 41 words; the bound is 40", "house words: told 2, anew 1"])

    def test_the_newest_part_of_the_change_log(self):
        log = "# Changes\n\n## 2.0.0\n\nNew.\n\n## 1.0.0\n\nIt was told anew.\n"
        prose = loaded("prose")
        self.assertEqual(prose.counted_part("CHANGELOG.md", log), "# Changes\n\n## 2.0.0\n\nNew.\n")
        self.assertEqual(prose.counted_part("docs/page.md", log), log)

    def test_without_style(self):
        with tempfile.TemporaryDirectory() as room:
            path = commands_in(room, "python3", "env")
            self.assertEqual(run("prose", "--check", PATH=path), (
                0, "bench/prose: style is missing, so no page was counted: apt-get install diction\n", ""))

    def test_arguments(self):
        self.assert_wrong(run("prose", "--chek"), "prose", "unrecognized arguments: --chek")
        self.assert_wrong(run("prose", "--check", "README.md"), "prose", "--check takes no PAGE")


@unittest.skipUnless(shutil.which("style"), "style is missing")
class Counted(Case):
    def setUp(self):
        self.top = self.enterContext(tempfile.TemporaryDirectory())

    def test_counts_of_a_page(self):
        self.assertEqual(prose_counts.counts_of("# Told\n\n" + PASSIVE + ACTIVE * 3),
                         prose_counts.Counts(words=22, sentences=4, passive=1, longest=7, house=[]))

    def test_the_table(self):
        page = os.path.join(self.top, "page.md")
        write(PASSIVE + ACTIVE * 3 + "It was told anew.\n", page)
        status, printed, _ = run("prose", page)
        self.assertEqual((status, printed.split("\n")[1].split()[1:]),
                         (0, ["26", "5", "5.2", "7", "40", "2", "told", "1,", "anew", "1"]))

    def test_a_page_that_is_missing(self):
        self.assertEqual(run("prose", f"{self.top}/none.md"),
                         (2, "", f"bench/prose: {self.top}/none.md: No such file or directory\n"))

    def test_check(self):
        os.mkdir(os.path.join(self.top, "bench"))
        write("# pages\npage.md\n", self.top, "bench/prose.txt")
        write(ACTIVE, self.top, "page.md")
        self.assertTrue(loaded("prose").check(self.top))
        write(ACTIVE + PASSIVE, self.top, "page.md")
        with contextlib.redirect_stderr(io.StringIO()) as printed:
            self.assertFalse(loaded("prose").check(self.top))
        self.assertEqual(printed.getvalue(), "bench/prose: page.md: 50 % of its sentences are passive; the bound is "
                                             "below 35 %\n")
