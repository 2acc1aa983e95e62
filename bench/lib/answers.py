"""What the program may answer to a text that may be no trace."""
import re
import signal


def manifest_faults(text):
    """The numbers in the table of a manifest's faults. Out of memory names no line."""
    table = text.split("\n| Number | Manifest fault |", 1)[1].split("\n\n", 1)[0]
    rows = re.findall(r"^\| (\d+) \| (\w+) \|", table, re.MULTILINE)
    return [number for number, word in rows if word != "OutOfMemory"]


def kinds_of_fault(text):
    """The items of the list of the first fault, as number and word."""
    part = text.split("\n### The first fault of a text\n", 1)[1].split("\n#", 1)[0]
    return re.findall(r"^- (\d+) (\w+): ", part, re.MULTILINE)


def faults_in(text):
    """The faults of a line that docs/formats.md names, as the program prints them after the line's number."""
    manifest = [f" {number}" for number in manifest_faults(text)]
    return {f"{number} {word}{fault}" for number, word in kinds_of_fault(text)
            for fault in (manifest if word == "Manifest" else [""])}


WITHOUT_LINE = {b"read failed\n", b"input too long\n", b"out of memory\n"}
REPORT = re.compile(rb"node (\S+) pods=(\d+) ticks=(\d+)\n(?s:.*\n)?totals updates=\d+ events=\d+ orders=\d+\n")


def kind_of(answer, lines, faults, tight=False):
    """The kind of an answer to a text of this many lines; one that begins with a ! is none that may be given."""
    status, written, said = answer
    if status < 0:
        return f"!ended by {signal.Signals(-status).name}"
    if status == 0:
        return "report" if REPORT.fullmatch(written) and not said else "!status 0 without a whole report"
    if written:
        return f"!status {status} with output"
    # 127 is the system's loader, which had no memory to start the program
    if tight and (status == 127 or not said and status in (1, 2)):
        return f"status {status}, without memory for its line"
    if status == 1 and said in WITHOUT_LINE:
        return said.decode().rstrip()
    found = re.fullmatch(rb"line (\d+): ([ \w]+)\n", said)
    # a text without a line that counts is rejected at the line after its last
    if status == 2 and found and found[2].decode() in faults and 1 <= int(found[1]) <= lines + 1:
        return found[2].decode()
    return f"!status {status}, {said[:80]!r}"


def agree(run, check):
    """Whether `check` answers as `run` does. Either of them alone may run out of memory."""
    if b"out of memory\n" in (run[2], check[2]):
        return True
    if run[0] != 0:
        return run == check
    pods, ticks = REPORT.fullmatch(run[1]).group(2, 3)
    return check == (0, b"ok pods=%s ticks=%s\n" % (pods, ticks), b"")


def is_cut_short(answer, ample):
    """Whether an answer is that with ample memory, perhaps without its line, or shows that memory lacks."""
    return answer[0] in (1, 127) or answer[:2] == ample[:2] and answer[2] in (b"", ample[2])
