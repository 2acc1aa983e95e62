"""Tests of the arguments of the shell scripts of a front door, and of bench/try version over small folders. What these
scripts compare is compared at each run of ./test."""
import os
import subprocess
import tempfile

from common import LONGEST, TOP, Case, commands_in, run, write

CONSTANT = 'const NAME: &str = "kubelet_replay";\n/// the version\npub const VERSION: &str = "1.2.3";\n'


def gate(*words, **settings):
    """The status, the output and the errors of ./test, which ends before it proves anything."""
    done = subprocess.run([f"{TOP}/test", *words], stdin=subprocess.DEVNULL, capture_output=True, text=True,
                          check=False, timeout=LONGEST, env={**os.environ, **settings})
    return done.returncode, done.stdout, done.stderr


class Version(Case):
    def setUp(self):
        self.top = self.enterContext(tempfile.TemporaryDirectory())
        os.makedirs(f"{self.top}/crates/commands/src")
        write("1.2.3\n", self.top, "VERSION")
        write(CONSTANT, self.top, "crates/commands/src/program.rt")
        write("# Changes\n\n## 1.2.3, this year\n", self.top, "CHANGELOG.md")

    def version(self):
        return run("try version", "--top", self.top)

    def test_they_agree(self):
        self.assertEqual(self.version(), (0, "", ""))

    def test_the_program_has_another(self):
        fault = "bench/try version: the constant VERSION in crates/commands/src is {}, but the file VERSION has 1.2.3\n"
        write(CONSTANT.replace("1.2.3", "1.2.2"), self.top, "crates/commands/src/program.rt")
        self.assertEqual(self.version(), (1, "", fault.format("1.2.2")))
        write("", self.top, "crates/commands/src/program.rt")
        self.assertEqual(self.version(), (1, "", fault.format("missing")))

    def test_the_changes_have_another(self):
        write("# Changes\n\n## 1.2.2\n", self.top, "CHANGELOG.md")
        self.assertEqual(self.version(), (1, "", "bench/try version: CHANGELOG.md has no part on 1.2.3\n"))


class Arguments(Case):
    def test_programs_that_are_not_there(self):
        for script in ("try commands", "try refused_memory"):
            self.assertEqual(run(script, "/nowhere"), (2, "", f"bench/{script}: there is no program /nowhere\n"))
        self.assertEqual(run("try refused_memory", "/bin/true", "/nowhere"), (
            2, "", "bench/try refused_memory: there is no program /nowhere\n"))
        self.assertEqual(run("release", "--program", "/nowhere"), (
            2, "", "bench/release: there is no program /nowhere\n"))

    def test_wrong_arguments(self):
        self.assert_wrong(run("try refused_memory", "a", "b", "c"), "try refused_memory", "unrecognized arguments: c")
        self.assert_wrong(run("release", "--all"), "release", "unrecognized arguments: --all")
        for option in "--program", "--sign":
            self.assert_wrong(run("release", option), "release", f"argument {option}: expected one argument")
        self.assertEqual(run("release", "--sign", "/nowhere"), (
            2, "", "bench/release: there is no key /nowhere, or it can't be read\n"))
        self.assert_wrong(run("try release"), "try release", "the following arguments are required: FOLDER")
        self.assertEqual(gate("--all"), (
            2, "",
            "test: unknown argument '--all'; known are --install, --without-tools, --proofs NAME.. and --help\n"))
        status, said, fault = gate("--help")
        self.assertEqual((status, fault), (0, ""))
        self.assertTrue(said.startswith("Runs the gate. "), said)

    def test_a_release_that_is_not_there(self):
        with tempfile.TemporaryDirectory() as room:
            self.assertEqual(run("try release", room), (2, "", f"bench/try release: there is no release in {room}\n"))

    def test_commands_that_are_missing(self):
        with tempfile.TemporaryDirectory() as room:
            path = commands_in(room, "env", "bash", "sh", "dirname", "readlink", "cat", "python3")
            self.assertEqual(run("try refused_memory", "/bin/true", PATH=path), (
                127, "", "bench/try refused_memory: a C compiler (cc) is missing; it builds the allocator that fails\n"))
            self.assertEqual(run("release", PATH=path), (127, "", "bench/release: git is missing\n"))
            os.remove(f"{path}/python3")
            for command, said in (("rt", "the Rattle kit is missing: put its command rt on the PATH"),
                                  ("cc", "a C compiler (cc) is missing; it builds the allocator that fails"),
                                  ("python3", "python3 is missing; it reads the documents and the sources")):
                self.assertEqual(gate(PATH=path), (127, "", f"test: {said}\n"))
                os.symlink("/bin/true", f"{path}/{command}")
