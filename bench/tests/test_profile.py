"""Tests of bench/profile. profile/costs is a file as callgrind writes it, small enough to be worked out manually: 1,000
instructions, of which core::fmt::write takes 200, a quarter of its calls' by kubelet_replay and the rest by trace."""
import os
import tempfile

from common import COMMANDS, PATH_WITH_COMMANDS, TESTS, Case, commands_in, read, run
import callgrind
import profile_tables

OURS = {"kubelet_replay", "trace"}
TABLES = """\
instructions                      0 M          0 M

all of them                      both         once
our crates                      44.0%        44.0%
serde_json, reading             30.0%        30.0%
the rest                        16.0%        16.0%
memory functions                10.0%        10.0%

of memory, by crate              both         once
serde_json, reading             60.0%        60.0%
our crates                      40.0%        40.0%

all, of our crates               both         once
trace                           29.0%        29.0%
kubelet_replay                  15.0%        15.0%

the most expensive functions by themselves, in each trace
  30.0%  30.0%  serde_json::de::from_slice
  20.0%  20.0%  core::fmt::write
  16.0%  16.0%  main
  14.0%  14.0%  trace::read
  10.0%  10.0%  kubelet_replay::run
  10.0%  10.0%  malloc
"""


class Groups(Case):
    def test_functions_by_their_names(self):
        for name, group in (
            ("malloc", callgrind.MEMORY), ("__memcpy_avx_unaligned", callgrind.MEMORY), ("main", callgrind.REST),
            ("trace::read", "trace"), ("trace::drop::serde_json++value++Value", callgrind.TREE),
            ("serde_json::value::Value", callgrind.TREE), ("serde_json::map::Map", callgrind.TREE),
            ("serde_json::value::Value::from_str", callgrind.READER), ("json::read", callgrind.READER),
            ("core::fmt::write", None), ("std_alloc::vec", None), ("clap::parse", callgrind.REST),
        ):
            self.assertEqual(callgrind.group_of(name, OURS), group, name)

    def test_a_cycle_of_the_library_falls_to_those_who_call_it(self):
        below = {("trace::a", "std::x"): 5, ("std::x", "std::y"): 4, ("std::y", "std::x"): 3}
        groups = {"trace::a": "trace", "std::x": None, "std::y": None}
        share = callgrind.shares(below, groups)
        self.assertAlmostEqual(share["std::x"]["trace"], 1.0, places=3)
        self.assertAlmostEqual(share["std::y"]["trace"], 1.0, places=3)


class Tables(Case):
    def test_costs(self):
        own, below = callgrind.costs_in(read(TESTS, "profile/costs").splitlines(True))
        self.assertEqual(dict(own), {"kubelet_replay::run": 100, "trace::read": 140, "serde_json::de::from_slice": 300,
                                     "core::fmt::write": 200, "malloc": 100, "main": 160})
        self.assertEqual(below["trace::read", "core::fmt::write"], 150)
        self.assertEqual(below["core::fmt::write", "malloc"], 40)

    def test_the_tables(self):
        lines = read(TESTS, "profile/costs").splitlines(True)
        profiles = {name: callgrind.Profile(lines, OURS) for name in ("both", "once")}
        self.assertEqual("\n".join(profile_tables.tables(profiles)) + "\n", TABLES)

    def test_the_whole(self):
        program = f"{COMMANDS}/replay"
        status, said, told = run("measure profile", program, PATH=PATH_WITH_COMMANDS)
        self.assertEqual((status, told), (
            0, f"bench/measure profile: callgrind runs {program} over small_pods small_ticks small_lines\n"))
        # kubelet_replay and trace are crates of the repository too
        self.assertEqual(said.splitlines()[2:4], ["all of them                small_pods  small_ticks  small_lines",
                                                  "our crates                      44.0%        44.0%        44.0%"])

    def test_a_run_that_fails(self):
        status, said, told = run("measure profile", "/bin/false", PATH=PATH_WITH_COMMANDS)
        self.assertEqual((status, said, told.splitlines()[-1]), (
            1, "", "bench/measure profile: the run over small_pods failed"))

    def test_words(self):
        for words in (("--all",), ("/bin/true", "2")):
            self.assert_wrong(run("measure profile", *words), "measure profile", f"unrecognized arguments: {words[-1]}")
        with tempfile.TemporaryDirectory() as room:
            path = commands_in(room, "python3", "env")
            self.assertEqual(run("measure profile", "/nowhere", PATH=path), (
                127, "", "bench/measure profile: valgrind is missing; callgrind is a part of it\n"))
            os.symlink("/bin/true", f"{path}/valgrind")
            self.assertEqual(run("measure profile", "/nowhere", PATH=path), (
                2, "", "bench/measure profile: there is no program /nowhere\n"))
