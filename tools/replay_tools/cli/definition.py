"""The specification of all commands: what each is for, its arguments, options, defaults, examples and exit
statuses."""

from __future__ import annotations

from dataclasses import replace

from replay_tools.cli import options, values
from replay_tools.cli.specification import Command, Entry, Example, Group, Option, Together
from replay_tools.cli.statuses import Status

# --fail-on: what may have happened to a pod
KINDS = ("evicted", "restarted", "unready")
# --by: the measures of the worst pods of a fleet
MEASURES = ("worst", "restarts", "unready", "evicted")
MOST_PROCESSES = 1024
MOST_SECONDS_OF_EDIT = 999_999

OF_TRACES = {Status.DONE: "done", Status.FAILED: "output failed", Status.BAD_INPUT: "bad input"}
# options of all commands that ask files or a cluster
OF_CLUSTER = (options.SELECTOR, options.RECORDERS_OF_CLUSTER, options.TIMEOUT_OF_CLUSTER)
ALIASES = (options.TRACE, options.TRACES)
ASKS_CLUSTER = "Without -f it asks the recorders of a cluster."
NEEDS_TO_ASK = "the program for a trace, `kubectl` for a cluster"

RECORD = Command(
    "record", "record", Group.RECORD, "record a node as a trace",
    usage=("[--for N] [options] > TRACE", "--into FOLDER [options]", "--check [options]"),
    examples=(
        Example("What works, and which permission is missing", "{kubelet_replay} record --check --node worker-3"),
        Example("Always, a trace an hour, for two days",
                "{kubelet_replay} record --node worker-3 --into /var/lib/kubelet-replay")),
    lines=(
        Option(("--node",), "NAME", "the node's name in the cluster", "uname -n"),
        Option(("--kubelet",), "URL", "ask the kubelet there, not kubectl; none: ask neither"),
        Option(("--curl",), "FILE", "the token, and how to check the kubelet's certificate", is_of_file=True),
        Option(("--crictl",), "COMMAND", "how to start crictl ('chroot /host crictl')"),
        Option(("--node-line",), "FILE", "a node line, if the kubelet serves no /configz", is_of_file=True),
        Together((Option(("--for",), "N"), Option(("--ticks",), "N", default="20000")),
                 "end after N seconds, or after N ticks ({ticks})"),
        Together((Option(("--look",), "N", default="1"), Option(("--every",), "N", default="10")),
                 "seconds between two polls ({look}), between two ticks ({every})"),
        Option(("--logs",), "N", "keep safe parts of a failed container's last N lines"),
        Option(("--events",), "URL", "ask the API server for Events; kubectl: ask by kubectl"),
        Option(("--metrics",), "FILE", "also write OpenMetrics text", is_of_file=True),
        Option(("--throttled",), "yes|no", "ask how long processors were throttled", choices=("yes", "no")),
        Together((Option(("--standard",)), Option(("--extended",))), "the trace's format (--standard)"),
        Option(("--eviction-pause",), "N", "the longest pause after an eviction, in seconds", "30"),
        Option(("--simulate",), says="let the rules evict pods by themselves"),
        Together((Option(("--into",), "FOLDER", is_of_file=True), Option(("--each",), "TIME", default="1h")),
                 "one trace after the other, each for --each TIME ({each})", shown="--into FOLDER"),
        Together((Option(("--keep",), "TIME", default="48h"), Option(("--most",), "SIZE", default="2Gi")),
                 "remove older traces ({keep}), keep at most SIZE ({most})"),
        Option(("--ship",), "COMMAND", "run COMMAND for each whole trace ('rclone copy {} x:')"),
        Option(("--check",), says="test each source once, and end")),
    exits={Status.DONE: "done", Status.FAILED: "nothing recorded or a check failed", Status.BAD_INPUT: "bad input"},
    needs="`crictl`, as root; `kubectl`, or the kubelet's address and a token", more="docs/recorder.md",
    parses_itself=True)

IMPORT = Command(
    "import", "import_journal", Group.RECORD, "make a trace from a kubelet's journal",
    sentence="Make a trace from a kubelet's journal, for a node without a recorder.",
    usage=("--journal FILE .. [options] > TRACE", "NODE [--since 3h] [options] > TRACE"),
    notes=("With NODE it asks the cluster for the logs, by kubectl.",),
    examples=(
        Example("From the node's journal, with the manifests of the cluster's pods",
                "{kubelet_replay} import --journal kubelet.json --pods pods.json > node.trace"),
        Example("From the cluster, with nothing installed on the node",
                "kubectl replay import worker-3 --since 3h > worker-3.trace")),
    lines=(
        Option(("--journal",), "FILE", "a journal of the kubelet or of its runtime, or -", may_repeat=True,
               is_of_file=True),
        Option(("--pods",), "FILE", "manifests and statuses (kubectl get pods -A -o json)", may_repeat=True,
               is_of_file=True),
        Option(("--events",), "FILE", "kubectl get events -A -o json", may_repeat=True, is_of_file=True),
        Option(("--audit",), "FILE", "an audit log of the API server", may_repeat=True, is_of_file=True),
        Option(("--node",), "NAME", "the node, if the journal has several or no name"),
        Option(("--unit",), "NAME", "the kubelet's systemd unit (k3s, rke2-agent, ..)", may_repeat=True),
        Together((Option(("--year",), "N", kind=values.year), Option(("--zone",), "+02:00")),
                 "for klog's moments (the file's year, and UTC)"),
        Option(("--most",), "SIZE", "how much of each journal to read", "4Gi", is_applied=False,
               kind=values.size_of_journal),
        Option(("--into",), "FOLDER", "write one trace after the other into FOLDER", is_of_file=True),
        Option(("--each",), "TIME", "how long such a trace is", "1h", kind=values.length_of_trace),
        Option(("--since",), "TIME", "with NODE, how far back", "1h", is_applied=False),
        Option(("--timeout",), "N", "seconds for which an answer may pause", "60", is_applied=False,
               kind=values.pause),
        replace(options.KUBECTL, shown="--context NAME, --kubeconfig FILE, ..")),
    exits={Status.DONE: "done", Status.FAILED: "nothing to import or no output", Status.BAD_INPUT: "bad input"},
    needs="`python3-yaml` for YAML; `kubectl` for NODE", more="docs/import.md")

NODES = Command(
    "nodes", "nodes", Group.RECORD, "list the nodes of a cluster that record",
    sentence="List the nodes of a cluster that record, since when and how much.",
    usage=("[options]",),
    examples=(Example("All nodes with a recorder", "kubectl replay nodes"),
              Example("Of another cluster", "kubectl replay nodes --context staging")),
    lines=(options.RECORDERS, options.TIMEOUT, options.KUBECTL),
    exits={Status.DONE: "done", Status.FAILED: "a recorder did not answer", Status.BAD_INPUT: "bad input"},
    needs="`kubectl`", takes_arguments=False)

FETCH = Command(
    "fetch", "fetch", Group.RECORD, "copy the traces of a cluster's nodes into a folder",
    usage=("NODE .. [options]", "--all [options]"),
    examples=(
        Example("The last two hours of two nodes", "kubectl replay fetch worker-3 worker-4 --since 2h"),
        Example("All nodes, around 03:10", "kubectl replay fetch --all --at 03:10Z --into incident/")),
    lines=(
        Option(("--all",), says="all nodes that record"),
        replace(options.SINCE, says="only the traces since TIME (2h, or 2026-11-27T03:10Z)"),
        options.AT,
        Option(("--into",), "FOLDER", "where to copy them", "traces", is_of_file=True),
        Option(("--most",), "SIZE", "the most to copy of a node", "1Gi", kind=values.size(1 << 20, "1Mi")),
        options.RECORDERS, options.TIMEOUT, options.KUBECTL),
    exits={Status.DONE: "done", Status.FAILED: "some traces did not come", Status.BAD_INPUT: "bad input"},
    needs="`kubectl`")

STORY = Command(
    "story", "story", Group.ASK, "show what happened to a pod, and why",
    usage=("[POD | NAMESPACE/] -f FILE [options]", "WORKLOAD | POD | -n NAMESPACE | -A [options]",
           "--follow FOLDER [POD | NAMESPACE/] [options]"),
    notes=(f"{ASKS_CLUSTER} Without POD it lists the pods,\nthe worst first.",),
    examples=(
        Example("The worst pods of a recording", "{kubelet_replay} story -f node-a.trace"),
        Example("One pod, around 03:10", "{kubelet_replay} story -f traces/ --at 03:10Z shop/web"),
        Example("A Deployment, over all its nodes", "kubectl replay story deploy/web -n shop --since 2h")),
    lines=(
        options.FILE, options.SINCE, options.AT_OF_POD, options.NODE,
        Option(("--follow",), "FOLDER", "print events as a recorder writes them into FOLDER", is_of_file=True),
        options.NAMESPACE, options.EVERYWHERE, options.SELECTOR,
        Option(("--all",), says="each event (default: the last 20 that matter)"),
        Option(("-o", "--output"), "json", "the story as one JSON object", kind=values.one_of(("json",)),
               choices=("json",)),
        options.RECORDERS_OF_CLUSTER, options.TIMEOUT_OF_CLUSTER, options.CLOCKS,
        Option(("--without-why",), is_hidden=True), *ALIASES, options.KUBECTL_ALONE),
    exits=OF_TRACES, needs=NEEDS_TO_ASK, pods="one", takes_file=True, lists_pods=True, takes_several=True)

WHY = Command(
    "why", "why", Group.ASK, "show what led to each event of a pod",
    usage=("POD -f FILE [options]", "WORKLOAD | POD | -l LABEL [options]"),
    notes=(ASKS_CLUSTER,),
    examples=(
        Example("The probe results that led to a kill, the samples before an eviction",
                "{kubelet_replay} why -f node-a.trace shop/web"),
        Example("Around 03:10, over several traces", "{kubelet_replay} why -f traces/ --at 03:10Z shop/web"),
        Example("A StatefulSet, over all its nodes", "kubectl replay why sts/db -n shop")),
    lines=(options.FILE_OF_TRACES, options.SINCE, options.AT_OF_POD, options.NODE, options.NAMESPACE, *OF_CLUSTER,
           options.CLOCKS, replace(options.EVERYWHERE, is_hidden=True), *ALIASES, options.KUBECTL_ALONE),
    exits=OF_TRACES, needs=NEEDS_TO_ASK, pods="one", takes_file=True, takes_several=True)

PAGE = Command(
    "page", "page", Group.ASK, "make an HTML page of a node",
    sentence="Make an HTML page of a node: its signals, evictions, pods and their causes.",
    usage=("-f FILE [options] > PAGE.html", "WORKLOAD | -l LABEL [options] > PAGE.html"),
    notes=(f"{ASKS_CLUSTER[:-1]}, and shows the node of the\nworkload's worst pod.",),
    examples=(
        Example("The last two hours of a node", "{kubelet_replay} page -f traces/ --since 2h > node-a.html"),
        Example("The node of a Deployment's worst pod", "kubectl replay page deploy/web -n shop > web.html")),
    lines=(options.FILE, options.SINCE, options.AT, options.NODE, options.NAMESPACE_OF_WORKLOAD, *OF_CLUSTER,
           options.CLOCKS, replace(options.EVERYWHERE, is_hidden=True), *ALIASES, options.KUBECTL_ALONE),
    exits=OF_TRACES, needs=f"{NEEDS_TO_ASK}, a browser", takes_file=True, names_files=True, takes_several=True)

TIMELINE = Command(
    "timeline", "timeline", Group.ASK, "draw pods as an SVG picture",
    sentence="Draw pods as an SVG picture, with a lane for each container.",
    usage=("[POD ..] -f FILE [options] > PICTURE.svg", "WORKLOAD | -l LABEL [options] > PICTURE.svg"),
    notes=(f"{ASKS_CLUSTER} Without POD it draws all pods.",),
    examples=(
        Example("One pod of a recording", "{kubelet_replay} timeline -f node-a.trace shop/web > web.svg"),
        Example("All pods of a namespace, around 03:10",
                "{kubelet_replay} timeline -f traces/ --at 03:10Z shop/ > shop.svg")),
    lines=(options.FILE, options.SINCE, options.AT, options.NODE, options.NAMESPACE, *OF_CLUSTER, options.CLOCKS,
           replace(options.EVERYWHERE, is_hidden=True), *ALIASES, options.KUBECTL_ALONE),
    exits=OF_TRACES, needs=NEEDS_TO_ASK, pods="any", takes_file=True, takes_several=True)

JSON = Command(
    "json", "json_lines", Group.ASK, "write a report as JSON lines, or as tables of SQLite",
    usage=("-f FILE [options] > LINES", "-f FILE --sqlite DB [options]", "WORKLOAD | -l LABEL [options] > LINES"),
    notes=(ASKS_CLUSTER,),
    examples=(
        Example("The pods that a signal evicted",
                "{kubelet_replay} json -f node-a.trace | jq 'select(.record == \"eviction\")'"),
        Example("The same data as tables", "{kubelet_replay} json -f traces/ --sqlite node-a.db")),
    lines=(options.FILE,
           Option(("--sqlite",), "DB", "write the tables of a database instead of lines", is_of_file=True),
           options.SINCE, options.AT, options.NODE, options.NAMESPACE_OF_WORKLOAD, *OF_CLUSTER,
           replace(options.EVERYWHERE, is_hidden=True), *ALIASES, options.KUBECTL_ALONE),
    exits=OF_TRACES, needs=NEEDS_TO_ASK, more="docs/report.schema.json", takes_file=True, takes_several=True)

WHAT_IF = Command(
    "what-if", "what_if", Group.ASK, "replay a trace as it is and with an edit",
    sentence="Replay a trace as it is and with an edit, and show which report lines differ.",
    usage=("-f TRACE [--timeout N] EDIT",),
    notes=("""\
EDIT is a jq program, with these functions:
  node(f)                   f changes the node line
  pod("KEY"; f)             f changes the manifest of the pod NAMESPACE/NAME
  container("KEY"; "C"; f)  f changes its container C
  tick(f)                   f changes each tick line""",),
    examples=(
        Example("With another threshold",
                "{kubelet_replay} what-if -f node-a.trace \\\n"
                "    'node(.evictionHard[\"memory.available\"] = \"500Mi\")'"),
        Example("With a laxer probe",
                "{kubelet_replay} what-if -f node-a.trace \\\n"
                "    'container(\"shop/web\"; \"app\"; .livenessProbe.failureThreshold = 5)'")),
    lines=(
        replace(options.FILE, value="TRACE", says="the trace, or -"),
        Option(("--timeout",), "N", "end an edit that takes longer than N seconds", "10",
               kind=values.whole_number(MOST_SECONDS_OF_EDIT))),
    exits=OF_TRACES, needs="`jq`, `diff`, the program", takes_file=True)

RUN = Command(
    "run", "run", Group.CHECK, "write the report of a trace, by the proved program",
    usage=("-f FILE [options] > REPORT",),
    notes=("Of a folder it writes the reports one after the other.",),
    examples=(
        Example("The report of a trace", "{kubelet_replay} run -f worker-3.trace > worker-3.report"),
        Example("In a script: status 4 if a pod was evicted or is unready",
                "{kubelet_replay} run -f worker-3.trace --fail-on evicted,unready")),
    lines=(
        options.FILE_OF_TRACE,
        Option(("--fail-on",), "KINDS", f"status 4 if it happened: {', '.join(KINDS)}", kind=values.some_of(KINDS),
               choices=KINDS, is_list=True),
        Option(("--workers",), "N", "how many workers take the steps of the replay"),
        Option(("--extended",), says="read the trace in the extended format, whatever it is")),
    exits={Status.DONE: "done", Status.FAILED: "the program failed", Status.BAD_INPUT: "bad input",
           Status.HAPPENED: "--fail-on"},
    needs="the program", takes_file=True, names_files=True, is_of_program=True)

CHECK = Command(
    "check", "check", Group.CHECK, "test whether a file is a trace, by the proved program",
    sentence="Test whether a file is a trace, or print its first faulty line.",
    usage=("-f FILE [options]",),
    notes=("Of a folder it tests each trace.",),
    examples=(
        Example("One trace", "{kubelet_replay} check -f worker-3.trace"),
        Example("All traces of a folder", "{kubelet_replay} check -f traces/")),
    lines=(
        options.FILE_OF_TRACE,
        Option(("--extended",), says="read the trace in the extended format, whatever it is")),
    exits={Status.DONE: "a trace", Status.FAILED: "the program failed", Status.BAD_INPUT: "no trace, or bad input"},
    needs="the program", takes_file=True, names_files=True, is_of_program=True)

EXPLAIN = Command(
    "explain", "explain", Group.CHECK, "explain why the program rejects a trace",
    sentence="Explain why the program rejects a trace, and what to do.",
    usage=("-f FILE [options]",),
    examples=(
        Example("The field at fault, and the line around it", "{kubelet_replay} explain -f worker-3.trace"),
        Example("In one line, for a log", "{kubelet_replay} explain -f worker-3.trace --line")),
    lines=(
        options.FILE_OF_TRACE,
        Option(("--extended",), says="read the trace in the extended format"),
        Option(("--line",), says="print one line")),
    exits={Status.DONE: "done", Status.FAILED: "the program failed", Status.BAD_INPUT: "bad input"},
    needs="the program", takes_file=True, names_files=True)

FLEET = Command(
    "fleet", "fleet", Group.MANY, "replay the traces of many nodes, and find the worst",
    sentence="Replay the traces of many nodes, and find their worst pods and nodes.",
    usage=("run -f FILE .. --out DB [options]", "worst DB [--by MEASURE] [--top N] [--metrics FILE]"),
    examples=(
        Example("Replay all traces of a folder into a database",
                "{kubelet_replay} fleet run -f traces/ --out fleet.db"),
        Example("Print another table from it", "{kubelet_replay} fleet worst fleet.db --by unready --top 20")),
    lines=(
        replace(options.FILE, says="a trace, a folder, or a pattern in quotes", subcommands=("run",)),
        Option(("--out",), "DB", "the SQLite database to write", is_of_file=True, subcommands=("run",)),
        Option(("--by",), "MEASURE", "worst, restarts, unready or evicted", "worst", kind=values.one_of(MEASURES),
               choices=MEASURES),
        Option(("--top",), "N", "how many pods and nodes to print", "10", kind=values.whole_number(1_000_000)),
        Option(("--metrics",), "FILE", "also write OpenMetrics text for a node exporter", is_of_file=True),
        Option(("--parquet",), "FOLDER", "also write the tables as Parquet files", is_of_file=True,
               subcommands=("run",)),
        Option(("--processes",), "N", "how many processes to use (one for each processor)",
               kind=values.whole_number(MOST_PROCESSES), subcommands=("run",)),
        Option(("--scheduler",), "ADDRESS", "use the workers of Dask distributed at ADDRESS", subcommands=("run",)),
        Option(("--anew",), says="replay the traces again that are done already", subcommands=("run",))),
    exits={Status.DONE: "done", Status.FAILED: "a trace failed", Status.BAD_INPUT: "bad input"},
    needs="the program; `python3-distributed` for `--scheduler`, `pyarrow` for `--parquet`", more="docs/fleet.md",
    names_files=True, subcommands=("run", "worst"))

# in the order in which the help lists them
COMMANDS = {command.name: command for command in (
    RECORD, IMPORT, NODES, FETCH, STORY, WHY, PAGE, TIMELINE, JSON, WHAT_IF, RUN, CHECK, EXPLAIN, FLEET)}

OF_ALL = Entry(
    "kubelet-replay", "kubelet_replay", "Record what a node does, and find out why its pods restart or are evicted.",
    usage=("{kubelet_replay} COMMAND [options]", "{kubelet_replay} help COMMAND"),
    examples=(
        Example("One pod, from the recorders of a cluster", "kubectl replay story deploy/web -n shop --since 2h"),
        Example("The pods of a recording, the worst first", "{kubelet_replay} story -f worker-3.trace")),
    exits={Status.DONE: "done", Status.FAILED: "output or a source failed", Status.BAD_INPUT: "bad input",
           Status.HAPPENED: "--fail-on"},
    about="the program and its tools as one command", lists_commands=True)
OF_KUBECTL = replace(OF_ALL, name="kubectl-replay", module="kubectl_replay", typed="kubectl replay",
                     is_of_kubectl=True, about="the same as a plugin of kubectl")
COMPLETION = Entry(
    "kubectl_complete-replay", "kubectl_complete", "Complete the arguments of kubectl replay.",
    usage=("kubectl_complete-replay ARGUMENTS .. LAST",),
    notes=("""\
It prints what LAST may become after ARGUMENTS, which follow kubectl replay: a
line for each candidate, then the directive for the shell, :4 (no files) or :0
(files too). kubectl runs it if it is on the PATH. Pods and namespaces come
from the file of -f, so put -f first. Without a file it asks the cluster, for
5 s at most, for namespaces, nodes, recorders, contexts and workloads.""", """\
It needs python3, and kubectl for the namespace of its context. It leaves out
options of the recorder."""),
    exits={Status.DONE: "done", Status.MISSING: "python3 is missing"})
ENTRIES = {entry.name: entry for entry in (OF_ALL, OF_KUBECTL, COMPLETION)}
