"""Writes the manual page of the program to standard output, from its help and from the list of statuses in
docs/report.md.

    manual.py PROGRAM TOP VERSION DATE
"""
import re
import subprocess
import sys

EXAMPLES = (
    ("kubelet_replay run worker-3.trace > worker-3.report", "The report of a trace."),
    ("kubelet_replay check worker-3.trace", "Whether it is one, or its first faulty line."),
    ("kubelet_replay run --extended worker-3.trace", "The report of a trace of version 3, in which pods go."),
    ("zcat worker-3.trace.gz | kubelet_replay", "The report of a trace that is packed."),
    ("kubelet-replay story -f worker-3.report shop/web", "The story of one pod of a report."),
    ("kubelet-replay story -f /var/lib/kubelet-replay --at 03:10Z shop/web",
     "The same over the traces of a recorder, around a moment."),
)
# what is above the list of statuses
STATUSES = "\nThe program ends with a status, and prints on standard error:\n\n"


def said(program, *words):
    """What the program writes on standard output; that it fails is no text of a manual."""
    return subprocess.run([program, *words], capture_output=True, text=True, check=True).stdout


def parts_of(text):
    """The content of a help: the parts by their titles, the first under none, the usage under Usage."""
    parts, title = {"": []}, ""
    for line in text.split("\n"):
        usage = re.match(r"Usage: (.*)", line)
        head = re.match(r"(\w+):$", line)
        if usage:
            title = ""
            parts["Usage"] = [re.sub(r"^\S+", "kubelet_replay", usage[1])]
        elif head:
            title = head[1]
            parts[title] = []
        elif line.strip():
            parts[title].append(line)
    return parts


def items_of(lines):
    """The names of a list with what is next to each; a line that is indented further goes on with the last."""
    items = []
    for line in lines:
        head = re.match(r"  (\S.*?)(?:  +(.*))?$", line) or re.match(r"  (?:    )?(-.*?)(?:  +(.*))?$", line)
        if head:
            items.append([head[1], [head[2] or ""]])
        else:
            items[-1][1].append(line.strip())
    return [(name, " ".join(words).strip()) for name, words in items]


def escaped(text):
    """The text as groff reads it: a hyphen belongs to a word, and a line's first point is no request."""
    text = text.replace("\\", "\\e").replace("-", "\\-")
    return "\\&" + text if text[:1] in (".", "'") else text


def list_of(items):
    """The lines of a list of words, each with what it means."""
    return [line for name, words in items for line in (".TP", f"\\fB{escaped(name)}\\fR", escaped(words))]


def statuses(top):
    """The items of the list of statuses, without its marks."""
    with open(f"{top}/docs/report.md", encoding="utf-8") as file:
        items = file.read().partition(STATUSES)[2].partition("\n\n")[0]
    for item in re.split(r"\n(?=- )", items):
        plain = " ".join(item.replace("`", "").split())
        status, when, line = re.fullmatch(r"- (\d+) \((.*?)\): (.*)", plain).groups()
        yield status, f"{when}. On standard error: {line}."


def command(program, name):
    """The lines on a command, from its own help."""
    parts = parts_of(said(program, "help", name))
    lines = [f".SS {escaped(name)}", *map(escaped, parts[""]), ".PP", f"\\fB{escaped(parts['Usage'][0])}\\fR"]
    for title in ("Arguments", "Options"):
        lines += list_of(item for item in items_of(parts.get(title, [])) if "help" not in item[0])
    return lines


def page(program, top, version, date):
    """The whole page, of the program's help and of the documents in a folder."""
    parts = parts_of(said(program, "help"))
    about, commands = parts[""][0], items_of(parts["Commands"])
    lines = [f'.TH KUBELET_REPLAY 1 "{date}" "kubelet_replay {version}"', ".SH NAME",
             f"kubelet_replay \\- {escaped(about[0].lower() + about[1:].rstrip('.'))}",
             ".SH SYNOPSIS", *(line for name, _ in commands if name != "help"
                               for line in (f"\\fBkubelet_replay\\fR {name} \\fI...\\fR", ".br")),
             "\\fBkubelet_replay\\fR < \\fITRACE\\fR",
             ".SH DESCRIPTION", escaped(about),
             "Without an argument it replays the trace of standard input, which commands take as /dev/stdin.",
             ".SH COMMANDS"]
    for name, _ in commands:
        if name != "help":
            lines += command(program, name)
    lines += [".SH OPTIONS", *list_of(items_of(parts.get("Options", [])))]
    lines += [".SH EXIT STATUS", *list_of(statuses(top))]
    lines += [".SH EXAMPLES", *list_of(EXAMPLES)]
    lines += [".SH DIAGNOSTICS", "kubelet\\-replay explain \\-f TRACE shows why the program rejects a trace: the field",
              "at fault, the line around it, and what to do."]
    lines += [".SH FILES", "Next to the program docs/rules.md has the rules, docs/formats.md the format of a trace,",
              "docs/report.md the format of a report, and examples/ has traces with their reports. The Debian package has",
              "them in /usr/share/doc/kubelet\\-replay."]
    lines += [".SH SEE ALSO", "\\fBkubelet\\-replay\\fR(1), \\fBkubelet\\-replay\\-story\\fR(1),",
              "\\fBkubelet\\-replay\\-explain\\fR(1)"]
    return "\n".join(lines) + "\n"


def main(words):
    if len(words) != 4:
        sys.exit("usage: manual.py PROGRAM TOP VERSION DATE")
    sys.stdout.write(page(*words))


if __name__ == "__main__":
    main(sys.argv[1:])
