"""The options that several commands share."""

from __future__ import annotations

from dataclasses import replace

from replay_tools.cli import values
from replay_tools.cli.specification import Option, Together

# the namespace of the recorders that deploy/daemonset.yaml starts
RECORDERS_NAMESPACE = "kubelet-replay"
# a source has so many seconds for its answer, by default and at most
SECONDS, MOST_SECONDS = 15, 3600

FILE = Option(("-f", "--filename"), "FILE", "a trace, a report, a folder of traces, or -", may_repeat=True,
              is_of_file=True, stored="files")
FILE_OF_TRACES = replace(FILE, says="a trace, or a folder of traces")
FILE_OF_TRACE = replace(FILE, says="a trace, a folder of traces, or -")
SINCE = Option(("--since",), "TIME", "only what came since TIME (2h, or 2026-11-27T03:10Z)")
AT = Option(("--at",), "TIME", "only from an hour before TIME to ten minutes after")
AT_OF_POD = replace(AT, says="only the ten minutes before and after TIME")
NODE = Option(("--node",), "NODE", "one node of a folder, or of the cluster")
NAMESPACE = Option(("-n", "--namespace"), "NAME", "the namespace of the pods")
NAMESPACE_OF_WORKLOAD = replace(NAMESPACE, says="the namespace of the workload")
EVERYWHERE = Option(("-A", "--all-namespaces"), says="the pods of all namespaces", stored="is_everywhere")
SELECTOR = Option(("-l", "--selector"), "LABEL", "the pods of the cluster with LABEL")
RECORDERS = Option(("--recorders",), "NAME", "the namespace of the recorders", RECORDERS_NAMESPACE)
TIMEOUT = Option(("--timeout",), "N", "seconds for which a recorder may be silent", str(SECONDS),
                 kind=values.seconds(MOST_SECONDS))
# a tool that reads files too has to see whether a cluster is asked
RECORDERS_OF_CLUSTER = replace(RECORDERS, is_applied=False)
TIMEOUT_OF_CLUSTER = replace(TIMEOUT, says="seconds for which a source may be silent", is_applied=False)
CLOCKS = Together(tuple(Option((f"--{name}",)) for name in ("utc", "local", "seconds")),
                  "moments in UTC, in local time, or in trace seconds")

# older forms of -f: the report comes on standard input, and this is its trace; or several traces
TRACE = Option(("--trace",), "TRACE", is_of_file=True, is_hidden=True)
TRACES = Option(("--traces",), "TRACES", is_of_file=True, may_repeat=True, is_hidden=True)

# as `kubectl options` lists them; the namespace is the command's own
CONTEXT, SERVER = "--context", ("--server", "-s")
VALUED = (CONTEXT, "--kubeconfig", "--cluster", "--user", "--as", "--as-group", "--as-uid", "--token",
          "--request-timeout", "--certificate-authority", "--client-certificate", "--client-key", "--tls-server-name",
          "--username", "--password", "--cache-dir")
FLAGS = ("--insecure-skip-tls-verify",)
OF_FILES = ("--kubeconfig", "--certificate-authority", "--client-certificate", "--client-key", "--cache-dir")


def of_kubectl(*names: str, value: str | None) -> Option:
    return Option(names, value, is_of_kubectl=True, is_of_file=names[0] in OF_FILES, is_hidden=names[0] != CONTEXT,
                  stored="kubectl")


KUBECTL = Together(
    (*(of_kubectl(name, value="VALUE") for name in VALUED), of_kubectl(*SERVER, value="VALUE"),
     *(of_kubectl(name, value=None) for name in FLAGS)),
    "kubectl's own options", shown="--context NAME, --kubeconfig FILE, --as USER, ..")
KUBECTL_ALONE = replace(KUBECTL, needs_kubectl=True)


def context_of(given: list[str]) -> str | None:
    """The context that some options of kubectl name."""
    return next((each.partition("=")[2] for each in reversed(given) if each.startswith(f"{CONTEXT}=")), None)
