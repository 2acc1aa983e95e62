"""Tests of a release: the documents that it has next to its program, made of this repository, and its signature."""
import glob
import importlib.util
import os
import re
import shutil
import subprocess
import sys
import tempfile

from common import TOP, Case, read, run
import links
import release_files

FILES = os.path.join(TOP, "bench/lib/release_files.py")
THERE = {".", "README.md", "docs", "docs/a.md", "docs/theorem", "docs/theorem/b.md"}


def plain(text, path="docs/a.md"):
    return release_files.without_dead_links(text, path, THERE)


class Links(Case):
    def test_a_link_to_what_is_not_there_becomes_its_words(self):
        self.assertEqual(plain("see [the\nsource](../crates/x/y.antt#L1), [`c`](../crates/z), [d `]` e](f)."),
                         "see the\nsource, `c`, d `]` e.")
        self.assertEqual(plain("[a](../../docs/a.md) [b](theorem/b.md)", "docs/theorem/b.md"), "[a](../../docs/a.md) b")

    def test_other_links_stay(self):
        text = "[a](#b) [c](theorem/b.md#d) [e](../README.md) [f](https://g.example/h) [i](theorem) [j]\n\n[j]: a.md\n"
        self.assertEqual(plain(text), text)

    def test_code_stays(self):
        text = "`[a](gone)` ``[b](gone)``\n\n```text\n[c](gone) ` [d](gone)\n```\n"
        self.assertEqual(plain(text + "[e](gone)"), text + "e")


class Files(Case):
    def test_each_link_leads_into_the_release(self):
        with tempfile.TemporaryDirectory() as room:
            subprocess.run([sys.executable, "-B", FILES, TOP, room], check=True)
            documents = sorted(glob.glob("**/*.md", root_dir=room, recursive=True))
            dead = [f"{path}:{number}: {target}" for path in documents
                    for number, target, _ in links.links_in(read(room, path), path)
                    if ":" not in target and not os.path.exists(os.path.join(room, target))]
            self.assertEqual(dead, [])
            self.assertIn("docs/theorem/trace.md", documents)
            self.assertIn("](docs/theorem.md)", read(room, "README.md"))
            self.assertFalse(os.path.exists(f"{room}/tools/tests") or os.path.exists(f"{room}/tools/test"))
            self.assertTrue(os.access(f"{room}/tools/story", os.X_OK))
            # but for links the documents are the repository's
            for path in "docs/report.md", "docs/gate.md", "examples/README.md":
                self.assertEqual(read(room, path), read(TOP, path))

    def test_words(self):
        done = subprocess.run([sys.executable, "-B", FILES, TOP], capture_output=True, text=True, check=False)
        self.assertEqual((done.returncode, done.stderr), (3, "usage: release_files.py TOP FOLDER\n"))


# replaces the program, which is asked for its help alone
PROGRAM = os.path.join(TOP, "bench/tests/manual/program")
KEYS = {
    "openssl": (["openssl", "genpkey", "-algorithm", "ed25519", "-out", "KEY.sec"],
                ["openssl", "pkey", "-in", "KEY.sec", "-pubout", "-out", "KEY.pub"]),
    "signify-openbsd": (["signify-openbsd", "-G", "-n", "-p", "KEY.pub", "-s", "KEY.sec"],),
}


class Bytecode(Case):
    def test_it_comes_with_the_release(self):
        """Each module of the archive has its bytecode for this Python, which is what runs, and nothing more is left."""
        room = self.enterContext(tempfile.TemporaryDirectory())
        status, made, said = run("release", "--program", PROGRAM, room)
        self.assertEqual(status, 0, said)
        subprocess.run(["tar", "-xzf", made.splitlines()[0], "-C", room], check=True)
        [package] = glob.glob(f"{room}/kubelet-replay-*/tools/replay_tools")
        sources = [os.path.join(package, path) for path in glob.glob("**/*.py", root_dir=package, recursive=True)]
        there = set(glob.glob(f"{package}/**/*.pyc", recursive=True))
        self.assertEqual(there, {importlib.util.cache_from_source(path) for path in sources})
        done = subprocess.run([f"{package}/../story", "--version"], capture_output=True, text=True, check=True,
                              env={"PATH": f"{os.path.dirname(sys.executable)}:/usr/bin:/bin", "PYTHONVERBOSE": "1"})
        loaded = [line for line in done.stderr.splitlines() if "code object from" in line and "replay_tools" in line]
        self.assertEqual([line for line in loaded if ".pyc" not in line and "__main__" not in line], [])
        self.assertTrue(any("/commands/" in line or "/entry." in line for line in loaded), loaded)
        self.assertEqual(set(glob.glob(f"{package}/**/*.pyc", recursive=True)), there)


class Archives(Case):
    """What a release of this checkout has, and for which machines."""

    def setUp(self):
        if shutil.which("dpkg-deb") is None:
            self.skipTest("dpkg-deb is missing")
        self.room = self.enterContext(tempfile.TemporaryDirectory())
        status, made, said = run("release", "--program", PROGRAM, self.room)
        self.assertEqual(status, 0, said)
        self.archive, self.package, self.tools, _ = made.splitlines()

    def test_what_there_is(self):
        self.check_names_and_needs()
        self.check_tools_for_any_machine()

    def check_names_and_needs(self):
        def field(name):
            return subprocess.run(["dpkg-deb", "--field", self.package, name], capture_output=True, text=True,
                                  check=True).stdout.strip()

        self.assertRegex(field("Depends"), r"^libc6 \(>= [0-9.]+\), python3 \(>= 3\.9\)$")
        version, last = field("Version"), read(TOP, "VERSION").strip()
        if version != last:
            self.assertRegex(version, rf"^{re.escape(last)}\+git\d{{8}}\.[0-9a-f]{{8}}$")
            major, minor, patch = map(int, last.split("."))
            for other, order in ((last, "gt"), (f"{major}.{minor}.{patch + 1}", "lt"), (f"{major}.{minor + 1}.0", "lt")):
                subprocess.run(["dpkg", "--compare-versions", version, order, other], check=True)
        names = [os.path.basename(path) for path in (self.archive, self.package, self.tools)]
        self.assertEqual(names, [f"kubelet-replay-{version}-x86_64-linux.tar.gz", f"kubelet-replay_{version}_amd64.deb",
                                 f"kubelet-replay-tools-{version}-all.tar.gz"])

    def check_tools_for_any_machine(self):
        """They have no program, nor what starts one as a service; what needs the program is named in one line."""
        subprocess.run(["tar", "-xzf", self.tools, "-C", self.room], check=True)
        [folder] = glob.glob(f"{self.room}/kubelet-replay-tools-*-all")
        self.assertEqual([name for name in ("lib", "deploy", "man/kubelet_replay.1")
                          if os.path.exists(f"{folder}/{name}")], [])
        for words, report, answer in ((["story", "api-7f9c"], "crash_loop.report", 0),
                                      (["run", f"{folder}/examples/crash_loop.trace"], "crash_loop.report", 127)):
            with open(f"{folder}/examples/{report}", encoding="utf-8") as file:
                done = subprocess.run([f"{folder}/kubelet-replay", *words], stdin=file, capture_output=True, text=True,
                                      check=False, env={"PATH": "/usr/bin:/bin"})
            self.assertEqual(done.returncode, answer, done.stderr)
        self.assertEqual((done.stdout, done.stderr.count("\n"), "Linux on x86-64" in done.stderr), ("", 1, True))


class FirstBlock(Case):
    """README's first block, pasted whole next to a made-up archive and its sums."""

    def pasted(self, listed, spoils=False):
        room = self.enterContext(tempfile.TemporaryDirectory())
        folder = f"{room}/kubelet-replay-1.0-x86_64-linux"
        os.mkdir(folder)
        with open(f"{folder}/kubelet-replay", "w", encoding="utf-8") as file:
            file.write("#!/bin/sh\necho \"$* OOM-killed evicted\"\n")
        os.chmod(f"{folder}/kubelet-replay", 0o755)
        name = os.path.basename(folder)
        subprocess.run(["tar", "-czf", f"{name}.tar.gz", name], cwd=room, check=True)
        shutil.rmtree(folder)
        with open(f"{room}/other", "w", encoding="utf-8") as file:
            file.write("other\n")
        with open(f"{room}/SHA256SUMS", "w", encoding="utf-8") as file:
            subprocess.run(["sha256sum", "other", *([f"{name}.tar.gz"] if listed else [])], cwd=room, check=True,
                           stdout=file)
        if spoils:
            with open(f"{room}/{name}.tar.gz", "ab") as file:
                file.write(b"more")
        block = next(part for part in read(TOP, "README.md").split("\n\n") if part.startswith("    archive="))
        done = subprocess.run(["bash"], input=block + "\n", cwd=room, capture_output=True, text=True, check=False)
        return os.path.isdir(folder), done.stdout.splitlines()

    def test_the_whole_block(self):
        self.assertEqual(self.pasted(True), (True, [
            "kubelet-replay-1.0-x86_64-linux.tar.gz: OK",
            "why -f examples/recorded/out_of_memory.trace shop/oom OOM-killed evicted",
            "run -f examples/memory_pressure.trace OOM-killed evicted"]))

    def test_what_is_never_unpacked(self):
        """An archive that the sums don't list, and one that is another than they list."""
        self.assertEqual(self.pasted(False), (False, []))
        self.assertEqual(self.pasted(True, spoils=True), (False, ["kubelet-replay-1.0-x86_64-linux.tar.gz: FAILED"]))


class Signed(Case):
    """The sums of a release are signed by a key of each kind, and checked as its help shows."""

    def check(self, signer):
        if shutil.which(signer) is None:
            self.skipTest(f"{signer} is missing")
        room = self.enterContext(tempfile.TemporaryDirectory())
        for words in KEYS[signer]:
            subprocess.run(words, cwd=room, check=True, capture_output=True)
        status, made, said = run("release", "--program", PROGRAM, "--sign", f"{room}/KEY.sec", room)
        self.assertEqual((status, made.splitlines()[3:]), (0, [f"{room}/SHA256SUMS", f"{room}/SHA256SUMS.sig"]), said)
        [words] = [line.split() for line in read(TOP, "bench/release").splitlines()
                   if line.startswith(f"  {signer} ")]
        whole = subprocess.run(words, cwd=room, check=False, capture_output=True)
        self.assertEqual(whole.returncode, 0, whole.stderr)
        with open(f"{room}/SHA256SUMS", "a", encoding="utf-8") as file:
            file.write("0\n")
        self.assertNotEqual(subprocess.run(words, cwd=room, check=False, capture_output=True).returncode, 0)

    def test_by_openssl(self):
        self.check("openssl")

    def test_by_signify(self):
        self.check("signify-openbsd")

    def test_what_is_no_key(self):
        if shutil.which("openssl") is None:
            self.skipTest("openssl is missing")
        with tempfile.TemporaryDirectory() as room:
            status, made, said = run("release", "--program", PROGRAM, "--sign", f"{TOP}/README.md", room)
            self.assertEqual((status, made, os.path.exists(f"{room}/SHA256SUMS.sig")), (1, "", False))
            self.assertTrue(said.endswith(f"the release is not signed: openssl does not take {TOP}/README.md\n"), said)
