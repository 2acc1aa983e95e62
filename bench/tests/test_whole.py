"""Tests of ./test, over a kit and scripts that only show what they were asked."""
import os
import shutil
import subprocess
import tempfile

from common import TOP, Case, write

PARTS = ("version", "theorem", "calls", "planted", "architecture", "texts", "test", "lint", "cases", "commands",
         "edges", "refused_memory", "release", "try_release")
PART = """\
#!/bin/sh
echo "ran ${0##*/} $*"
[ "${0##*/}" != "$FAILS" ]
"""
# it shows what the kit prints, and waits until the program was tried where that is to come before its end
KIT = """\
#!/bin/sh
mkdir -p crates/replay_program/out
echo program >crates/replay_program/out/replay_program
echo "rt: trace proved"
echo "rt: replay_program $PROGRAM"
for _ in $WAITS; do
    [ -f tried ] || sleep 0.1
done
[ ! -f tried ] || echo "rt: the program was tried by then"
echo "rt: calls_tests proved"
echo "47 passed, $FAULTS failed"
exit "$FAULTS"
"""


class Whole(Case):
    """A copy of ./test next to scripts that show that they ran."""

    def setUp(self):
        self.top = self.enterContext(tempfile.TemporaryDirectory())
        for folder in ("bench/lib", "tools", "kit"):
            os.makedirs(f"{self.top}/{folder}")
        shutil.copy(f"{TOP}/test", self.top)
        shutil.copy(f"{TOP}/bench/lib/current.sh", f"{self.top}/bench/lib")
        for name in PARTS:
            self.put(f"bench/{name}", PART)
        self.put("bench/edges", PART.replace("\n[", "\ntouch tried\n[", 1))
        self.put("tools/test", PART)
        self.put("kit/rt", KIT)
        for example, copy in (("a.trace", "traces/examples/a.trace"), ("a.report", "traces/examples/a.report"),
                              ("extended/a.trace", "traces/extended/a.trace"),
                              ("manifests/a.json", "manifests/a.json")):
            for path in (f"examples/{example}", f"crates/case_runner/data/{copy}"):
                os.makedirs(os.path.dirname(f"{self.top}/{path}"), exist_ok=True)
                write("an example\n", self.top, path)

    def put(self, path, text):
        write(text, self.top, path)
        os.chmod(f"{self.top}/{path}", 0o755)

    def run_copy(self, program="proved", faults=0, fails="", waits=50, *words):
        done = subprocess.run([f"{self.top}/test", *words], stdin=subprocess.DEVNULL, capture_output=True, text=True,
                              check=False, env={**os.environ, "PATH": f"{self.top}/kit:{os.environ['PATH']}",
                                                "PROGRAM": program, "FAULTS": str(faults), "FAILS": fails,
                                                "WAITS": "w " * waits})
        return done.returncode, done.stdout.splitlines(), done.stderr

    def ran(self, said):
        return [line.split()[1] for line in said if line.startswith("ran ")]

    def test_all_passes(self):
        status, said, fault = self.run_copy()
        self.assertEqual((status, fault, said[-1]), (0, "", "47 passed, 0 failed"))
        self.assertIn("rt: the program was tried by then", said)
        # what is printed quietly is not shown
        self.assertEqual(self.ran(said), [*(name for name in PARTS[:-2] if name != "theorem"), "try_release", "test"])

    def test_a_program_that_is_kept(self):
        """Nothing shows when it is there, so it is tried after the proofs."""
        status, said, _ = self.run_copy("is kept", waits=0)
        self.assertEqual((status, said[-1]), (0, "47 passed, 0 failed"))
        self.assertNotIn("rt: the program was tried by then", said)
        self.assertGreater(said.index("ran cases " + self.program()), said.index("rt: calls_tests proved"))

    def program(self):
        return f"{os.path.realpath(self.top)}/crates/replay_program/out/replay_program"

    def test_a_program_that_is_another_one_at_the_end(self):
        """The copy that was tried next to the proofs is no longer the program, so the program is tried too."""
        written = "echo other >crates/replay_program/out/replay_program\necho \"rt: calls_tests"
        self.put("kit/rt", KIT.replace("echo \"rt: calls_tests", written))
        status, said, _ = self.run_copy()
        self.assertEqual((status, said[-1]), (0, "47 passed, 0 failed"))
        self.assertEqual(self.ran(said).count("cases"), 2)
        self.assertIn("ran cases " + self.program(), said)

    def test_help(self):
        status, said, fault = self.run_copy("proved", 0, "", 0, "--help")
        self.assertEqual((status, fault), (0, ""))
        self.assertIn("  ./test [--install] [--without-tools]", said)
        self.assertEqual(self.ran(said), [])

    def test_without_the_kit_nothing_is_installed(self):
        os.mkdir(f"{self.top}/commands")
        self.put("commands/apt-get", "#!/bin/sh\ntouch installed\n")
        done = subprocess.run([f"{self.top}/test", "--install"], stdin=subprocess.DEVNULL, capture_output=True,
                              text=True, check=False, cwd=self.top, env={"PATH": f"{self.top}/commands:/usr/bin:/bin"})
        self.assertEqual((done.returncode, done.stdout), (127, ""))
        self.assertEqual(done.stderr, "test: the Rattle kit is missing: put its command rt on the PATH\n")
        self.assertFalse(os.path.exists(f"{self.top}/installed"))

    def test_a_part_that_fails(self):
        for name in ("cases", "edges", "version", "release", "test"):
            with self.subTest(name):
                status, said, _ = self.run_copy(fails=name)
                count = 2 if name == "test" else 1
                self.assertEqual((status, said[-1]), (1, f"47 passed, {count} failed"))
                self.assertIn("test: the ends of the output of the parts that failed:", said)

    def test_proofs_that_fail(self):
        status, said, _ = self.run_copy(faults=1)
        self.assertEqual((status, said[-1]), (1, "47 passed, 1 failed"))
        self.assertIn("test: the program's release and the tools were not tried, since the proofs failed", said)
        self.assertNotIn("release", self.ran(said))

    def test_without_tools(self):
        status, said, _ = self.run_copy("proved", 0, "", 50, "--without-tools")
        self.assertEqual((status, said[-1]), (0, "47 passed, 0 failed"))
        self.assertEqual([name for name in self.ran(said) if name in ("lint", "test")], ["test"])
