"""The details of kubelet-replay, and of kubectl replay."""

OF_BOTH = """\
kubelet-replay COMMAND --help, or help COMMAND, shows a command's options. run and check belong to the proved
program.

The commands that read a trace or a report have these options:
  - -f, --filename FILE: a trace, which gzip may have packed, or a report. The command replays a trace for the tool. "-"
    is standard input. story, why, page, timeline and json take several files and folders, and report several traces
    as one; run, check and explain take each trace by itself.
  - --since 2h, --at TIME: of these tools: the traces since then, or around a moment, as 03:10Z
  - --node NODE: of these tools: one node of a folder. Without -f the command fetches the traces of that node from its
    recorder into a temporary folder. --recorders NAMESPACE is the namespace of the recorders (kubelet-replay).
  - deploy/web: of story, why, page, timeline and json without -f: a workload, also sts/, ds/, rs/, job/, cj/, pod/, in
    each form that kubectl takes (deployment web, Deployment.apps/web), or a label as -l app=web. If no report comes on
    standard input, story takes a namespace (-n) or all (-A) too, and story and why take a pod.
  - --timeout SECONDS: for how long a source may be silent (15); standard error names a slow one after 5 s
  - --all, -o json: of a story from a cluster: each event, and the whole as one JSON object
  - --fail-on KINDS: of run: status 4 if a pod was evicted, restarted or is unready at the end; KINDS are one or more of
    these three, with a comma between them
  - -n, --namespace NAME: the namespace of the pods
  - --local, --seconds: moments in this machine's zone, or the seconds of the trace; else times of UTC, with a Z

A pod is web, pod/web or shop/web, and its end may be missing if that fits one pod. SECURITY.md has the rights that each
command needs in a cluster.

{of_caller}

It replays and checks a trace whose node line has version 3 with --extended. If the program rejects a trace, one more
line has the meaning of the fault.

It needs python3, and what the tool of the command needs. {needs}

Status: the tool's; 1: a recorder did not answer; 2: a wrong argument, a file that can't be read or is rejected; 4: what
--fail-on names happened; 127: a command is missing.
"""
OF_CALLER = """\
Without -n a pod may be of any namespace. kubectl replay is the same with the namespace of kubectl's context and with
kubectl's own options."""
NEEDS = """\
Without python3 the program alone, kubelet_replay, writes reports. With __complete before other arguments it prints what
the last of them may become, for the completion of bash, zsh, fish and PowerShell. No PowerShell has run its script."""
TEXT = OF_BOTH.format(of_caller=OF_CALLER, needs=NEEDS)
