"""Tests of bench/run, over two checkouts whose programs are scripts of the shell."""
import os
import tempfile

from common import TOP, Case, loaded, run, write

SLOWER, SAME = "sleep 0.2; echo done $*", "echo done $*"


def checkout(room, name, script):
    """A checkout in which each workload's program is this script."""
    top = f"{room}/{name}"
    os.makedirs(f"{top}/bench")
    for crate in {crate for _, crate, _ in loaded("run").workloads()}:
        path = f"{top}/crates/{crate}/out/{crate}"
        os.makedirs(os.path.dirname(path))
        write(f"#!/bin/sh\n{script}\n", path)
        os.chmod(path, 0o755)
    return top


class Run(Case):
    def test_a_line_for_each_workload(self):
        names = [name for name, _, _ in loaded("run").workloads()]
        with tempfile.TemporaryDirectory() as room:
            status, said, fault = run("run", checkout(room, "old", SLOWER), checkout(room, "new", SAME), "7")
        self.assertEqual((status, fault), (0, ""))
        self.assertEqual([line.split()[0] for line in said.splitlines()], names)
        for line in said.splitlines():
            self.assertGreater(float(line.split()[-1]), 1.0)

    def test_it_stops_where_the_outputs_differ(self):
        name = next(loaded("run").workloads())[0]
        with tempfile.TemporaryDirectory() as room:
            old, new = checkout(room, "old", SAME), checkout(room, "new", "echo other")
            self.assertEqual(run("run", old, new), (1, "", f"bench/run: {name} prints something else in {new}\n"))

    def test_a_program_that_fails(self):
        with tempfile.TemporaryDirectory() as room:
            old, new = checkout(room, "old", "exit 4"), checkout(room, "new", SAME)
            status, said, fault = run("run", old, new)
        self.assertEqual((status, said), (1, ""))
        self.assertRegex(fault, f"^bench/run: .* ended with 4 in {old}\n$")

    def test_words(self):
        usage = "usage: bench/run OLD NEW [SEED]"
        self.assertEqual(run("run", TOP), (3, "", f"{usage}\n"))
        for seed in ("-1", "4294967296", "x"):
            self.assertEqual(run("run", "/", TOP, seed), (3, "", f"{usage}, with SEED a number below 2^32\n"))
        self.assertEqual(run("run", TOP, TOP), (3, "", "bench/run: OLD and NEW are one checkout\n"))
