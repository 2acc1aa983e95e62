"""The tests of tools/explain: it finds a field in each text that the program rejects, and the whole answers of some."""

import glob
import io
import json
import lzma
import os
import shutil
import tempfile

import cases
from checks import HERE, REPLAY, TOOLS, TOP, expect, expect_kept, expect_refused, read, run

from replay_tools import amounts
from replay_tools.explain import answer, before, lines, manifest, node, search, table, tick, told, verdict

load_tests = cases.loaded(__name__)

EXPLAINED = f"{HERE}/explained"
DATA = f"{TOP}/crates/case_runner/data"


def refused_texts():
    """The texts that the program's own tests have it reject: a name, the text, the message, whether it is read in the
    extended format."""
    for path in sorted(glob.glob(f"{DATA}/traces/**/*.refusal", recursive=True)):
        trace = path.removesuffix("refusal") + "trace"
        with open(trace, "rb") if os.path.exists(trace) else lzma.open(f"{trace}.xz") as file:
            yield path, file.read(), read(path).strip(), "/extended/" in path
    for path in sorted(glob.glob(f"{DATA}/lines/*.table")):
        before = read(path.removesuffix("table") + "before")
        for row in read(path).split("\n"):
            line, _, said = row.rpartition("\t")
            if row[:1] != "#" and said.startswith("status 2: "):
                yield f"{path} {line[:80]}", f"{before}{line}\n".encode(), said, "extended" in os.path.basename(path)


def found_of(text, said, is_extended):
    """What is found in a rejected text, as the answer that is printed."""
    line, number, _, manifest = verdict.REFUSED.fullmatch(said.removeprefix("status 2: ")).groups()
    given = verdict.Verdict(2, said, int(line), int(number), int(manifest) if manifest else None)
    found, shown = search.search(io.BytesIO(text), given, is_extended)
    return answer.Answer(said, True, found, *table.row(given.number, given.manifest)[1:], given.line, shown,
                         given.number in (31, 32))


def test_refused_texts():
    """A field is found in each, and each part of the answer fits on a terminal's line and has no control byte."""
    nothing, strange, count = [], [], 0
    for name, text, said, is_extended in refused_texts():
        count += 1
        given = found_of(text, said, is_extended)
        if not given.found:
            nothing.append(f"{name}: {said}")
        shown = told.whole_text(given, "TRACE")
        if not all(each.isprintable() or each == "\n" for each in shown) or not told.one_line(given).isprintable():
            strange.append(name)
    expect("explain finds a field of each refused text", nothing, [])
    expect("explain shows no control byte", strange, [])
    expect("explain was tried with the texts of all faults", count > 400, True)


def test_explanations():
    """Each folder has a trace, and the answers about it, whole and in one line."""
    for name in sorted(os.listdir(EXPLAINED)):
        status, shown, said = run([f"{TOOLS}/explain"], read(f"{EXPLAINED}/{name}/trace"))
        expect(f"explain {name}", (status, said), (0, ""))
        expect_kept(f"explain {name}: the text", shown, f"{EXPLAINED}/{name}/told")
        status, shown, said = run([f"{TOOLS}/explain", "--line"], read(f"{EXPLAINED}/{name}/trace"))
        expect(f"explain --line {name}", (status, said), (0, ""))
        expect_kept(f"explain --line {name}: the text", shown, f"{EXPLAINED}/{name}/line")


def test_words_of_recordings():
    """The fields that the extended format has of pods that are ended, exempt or named, where the program rejects
    one."""
    node = '{"kind":"node","version":3,"name":"n1"%s}\n'
    pod = '{"kind":"pod"%s,"pod":{"metadata":{"name":"a"},"spec":{"containers":[{"name":"c"}]}}}\n'
    tick = '{"kind":"tick","at":1%s,"pods":[{"pod":"default/a"%s}]}\n'
    for text, said, path in (
        (node % ',"evictionsRecorded":1', "line 1: 36 Config", ("evictionsRecorded",)),
        (node % "" + pod % ',"spared":"x"', "line 2: 35 Manifest 12", ("spared",)),
        (node % "" + pod % "" + tick % (',"judged":0', ""), "line 3: 46 Usage", ("judged",)),
        (node % "" + pod % "" + tick % ("", ',"failed":"no such"'), "line 3: 46 Usage", ("pods", 0, "failed")),
        (node % "" + pod % "" + tick % ("", ',"conditions":{"a":1}'), "line 3: 46 Usage",
         ("pods", 0, "conditions", "a")),
        (node % ',"crashLoopBackOff":{"maxContainerRestartPeriod":"0s"}', "line 1: 36 Config",
         ("crashLoopBackOff", "maxContainerRestartPeriod")),
    ):
        found = found_of(text.encode(), f"status 2: {said}", True).found
        expect(f"explain {path[-1]} of another kind", [each.path for each in found], [path])


def test_files():
    """Of a file that can't be read the reason is printed, of something else what it is."""
    folder = tempfile.mkdtemp()
    report = read(f"{TOP}/examples/liveness_kill.report")
    for name, text, wanted in (
        ("a.report", report.encode(), "it is a report"),
        ("a.gz", b"\x1f\x8b\x08", "it is packed by gzip: it is damaged, and can't be unpacked"),
        ("empty", b"", "it is empty: it has no line of a trace"),
        ("blank", b" \n\n", "it is empty: it has no line of a trace"),
        ("pod.json", b'{\n  "apiVersion": "v1",\n  "kind": "Pod"\n}\n', "it is a manifest\n"),
        ("utf16", '{"kind"'.encode("utf-16"), "it is text in UTF-16\n"),
    ):
        with open(f"{folder}/{name}", "wb") as file:
            file.write(text)
        status, shown, said = run([f"{TOOLS}/explain", f"{folder}/{name}"])
        expect(f"explain {name}", (status, said, wanted in shown or shown), (0, "", True))
    os.truncate(f"{folder}/empty", (64 << 20) + 1)
    for path, wanted in ((f"{folder}/empty", "the file has 67108865 bytes"),
                         (f"{folder}/a.reprot", f"{folder}/a.report"), (folder, "it is a folder"),
                         ("/nonexistent/a", "there is no folder /nonexistent")):
        status, shown, said = run([f"{TOOLS}/explain", path])
        expect(f"explain {path}", (status, said, wanted in shown or shown),
               (0 if os.path.exists(path) else 2, "", True))
    shutil.rmtree(folder)


def test_fallback():
    """Where no field is found, or the trace is another one by now, the answer is what the list of faults has."""
    folder = tempfile.mkdtemp()
    for text, said, wanted in (
        ('{"kind":"node","name":"n1"}\n', "line 1: 36 Config", "a field of the node line has another value"),
        ('{"kind":"node","name":"n1"}\n', "line 7: 44 ExitCode", "the text ends without a line that counts"),
        ('{"kind":"node","name":"n1"}\n[[\n{"kind":"tick","at":7}\n', "line 3: 42 Moment", "at is missing, no whole"),
        ('{"kind":"node","name":"n1"}\n[[\n', "line 2: 33 UnknownKind", "the line is no object, or its kind"),
        ('{"kind":"node","name":"n1"}\n', "line 1: 99 Strange", "the program rejects it"),
    ):
        with open(f"{folder}/trace", "w") as file:
            file.write(text)
        line, number, _, manifest_fault = verdict.REFUSED.fullmatch(said).groups()
        given = verdict.Verdict(2, said, int(line), int(number), manifest_fault)
        shown = told.whole_text(answer.of_verdict(f"{folder}/trace", given, False), "TRACE")
        expect(f"explain {said} of another text", wanted in shown or shown, True)
    shutil.rmtree(folder)


def test_other_texts():
    """Of a text that is another than the program has read nothing is found, or a field of that; a fault of the tool's
    own is not taken for such a text."""
    strange = set()
    for name, text, said, is_extended in refused_texts():
        line, _, _, manifest_fault = verdict.REFUSED.fullmatch(said.removeprefix("status 2: ")).groups()
        for number in range(31, 48):
            given = verdict.Verdict(2, said, int(line), number, int(manifest_fault or 11))
            try:
                search.search(io.BytesIO(text), given, is_extended)
            except amounts.Wrong:
                pass
            except Exception as error:  # noqa: BLE001 what a test looks for
                strange.add(f"{number} of {name}: {error!r}")
    expect("explain of texts with other faults", sorted(strange)[:3], [])
    found, answer.search = answer.search, {}.__getitem__
    try:
        expect("a fault of explain's own", answer.found_in(f"{TOP}/examples/first_tick.trace", None, False), "raised")
    except TypeError as error:
        expect("a fault of explain's own", "takes exactly one argument" in str(error), True)
    answer.search = found


def test_what_is_no_fault():
    trace = f"{TOP}/examples/liveness_kill.trace"
    shown = run([f"{TOOLS}/explain", trace])
    expect("explain of a trace", shown, (0, f"{trace}: ok pods=1 ticks=7\n  nothing is wrong with it\n", ""))


def test_words_of_explain():
    expect_refused("explain --all", run([f"{TOOLS}/explain", "--all"]), 2, "--all is no known argument")
    expect("explain a b", run([f"{TOOLS}/explain", "a", "b"]),
           (2, "".join(f"{name}: read failed\n  there is no such file\n" for name in "ab"), ""))
    expect_refused("explain of a closed standard input", run(["sh", "-c", f"exec '{TOOLS}/explain' <&-"]), 2,
                   "standard input is closed")
    shown = run([f"{TOOLS}/explain", f"{TOP}/examples/first_tick.trace"],
                KUBELET_REPLAY=f"{HERE}/commands/without_memory")
    expect("explain of a program without memory", (shown[0], "gave the program no more memory" in shown[1]), (1, True))
    expect_refused("explain without the program", run([f"{TOOLS}/explain", REPLAY],
                                                      KUBELET_REPLAY="/nonexistent/program"), 127, "is missing")


def test_a_program_that_fails():
    """Where there is no verdict that is the status."""
    folder = tempfile.mkdtemp()
    for script, said in (("kill -9 $$", "the program was ended by the signal 9"), ("exit 5", "ended with status 5"),
                         ("echo odd >&2; exit 1", "odd")):
        with open(f"{folder}/program", "w", encoding="utf-8") as file:
            file.write(f"#!/bin/sh\n{script}\n")
        os.chmod(f"{folder}/program", 0o755)
        for words in ([], ["--line"]):
            answer = run([f"{TOOLS}/explain", *words, f"{TOP}/examples/first_tick.trace"],
                         KUBELET_REPLAY=f"{folder}/program")
            expect(f"explain {words} of a program that does: {script}", (answer[0], said in answer[1], answer[2]),
                   (1, True, ""))
    shutil.rmtree(folder)


class CountingDecoder(json.JSONDecoder):
    """Counts the values that are looked for in a text."""

    count = 0

    def raw_decode(self, *given):
        self.count += 1
        return super().raw_decode(*given)


def test_a_line_of_many_names():
    """However many fields of a line are shown, it is searched once."""
    names, decoder, before_it = 20_000, CountingDecoder(), lines.DECODER
    lines.DECODER = decoder
    for text, said in (
        ('{"kind":"node","name":"n1","evictionHard":{' + ",".join(f'"s{each}":"1"' for each in range(names)) + "}}\n",
         "line 1: 36 Config"),
        ('{"kind":"node","name":"n1"}\n{"kind":"tick","at":7,"pods":['
         + ",".join(f'{{"pod":"shop/p{each}"}}' for each in range(names)) + "]}\n", "line 2: 39 StrangerPod"),
    ):
        decoder.count = 0
        given = found_of(text.encode(), said, False)
        told.whole_text(given, "TRACE")
        expect(f"explain {said} of many names", (len(given.found), decoder.count < 2 * names or decoder.count),
               (10, True))
    lines.DECODER = before_it


def test_names_of_other_bytes():
    """A file whose name is not UTF-8 is read, and where it is not there a line reports that."""
    folder = os.fsencode(tempfile.mkdtemp())
    shutil.copy(f"{TOP}/examples/first_tick.trace", folder + b"/\xff.trace")
    for words in ([], ["--line"]):
        answer = run([f"{TOOLS}/explain", *words, folder + b"/\xff.trace"])
        expect(f"explain {words} of a name that is not UTF-8", (answer[0], "ok pods=" in answer[1], answer[2]),
               (0, True, ""))
        answer = run([f"{TOOLS}/explain", *words, folder + b"/\xfe.trace"])
        expect(f"explain {words} of no file of such a name", (answer[0], "there is no such file" in answer[1],
                                                               answer[2]), (2, True, ""))
    shutil.rmtree(folder)


def faults_of(line, before):
    """Every fault that explain would find of a line, of any kind that has no number of its own."""
    kind = line["kind"]
    if kind == "node":
        yield from node.config_faults(line, True)
        yield from node.without_graces(line, before)
    elif kind == "pod":
        yield from (found for _, found in manifest.faults_of(line, before.version))
    elif kind == "tick":
        for faults in tick.FAULTS.values():
            yield from faults(line, before)


def test_accepted_texts():
    """Of a trace that the program takes no line has a fault."""
    wrong, count = [], 0
    for path in sorted(glob.glob(f"{DATA}/traces/**/*.report", recursive=True)):
        with open(path.removesuffix("report") + "trace", "rb") as file:
            texts = file.read().split(b"\n")
        state = before.Before()
        for number, text in enumerate(texts, 1):
            if not text.strip(b" \t\r"):
                continue
            line = lines.value_of(text)
            wrong += [f"{path} {number}: {found.says}" for found in faults_of(line, state)]
            state.take(number, line, True)
            count += 1
    expect("explain finds nothing in what the program takes", wrong, [])
    expect("explain was tried with lines that the program takes", count > 2000, True)
