"""The details of kubelet-replay record."""

TEXT = """\
It records a node as the lines of a trace (docs/formats.md). It polls the container runtime and the results of probes
every --look seconds, and writes a tick for each second in which something happened, and else after --every seconds. It
ends after --ticks, the most that a trace takes, after --for seconds, or at an interrupt, at the end of a line. --check
asks each source once, also if the command of another one is missing, prints what works and what is missing, and ends.

With --logs N it asks for the last N lines of each container that exits with another code than 0 (crictl logs), and
keeps what is known to have no secret.

With --events https://kubernetes.default.svc it asks the API server for the Events of a pod, after an exit, a probe that
fails and a wait, with the token of --curl. That needs the right to list events. Without a token use --events kubectl:
it takes 2.2 s of a processor in a minute, the URL takes 0.1 s.

With --metrics FILE has what was recorded so far as OpenMetrics text: restarts, deaths, kills, readiness, pressure.

With --throttled yes it asks the kubelet's /metrics/cadvisor for how long processors were throttled; no leaves it out.
By default it asks if it asks the kubelet at its port. Elsewhere the answer, of some MB with many pods, would go through
the API server. It never asks if no running container has a limit of its processor. It reads the answer in parallel with
the polls, which do not wait for it, line by line, up to 64 MiB.

--into FOLDER writes traces of the extended format one after the other, as NODE.2026-11-27T05-00-00Z.trace.gz, until an
interrupt (docs/recorder.md). Each begins where the earlier one ends: after --each (by UTC), or earlier at --ticks, 64
MiB or 256 pods. A trace in progress is .trace.part; the next start ends what a crash leaves. It keeps traces for
--keep, and at most --most bytes of them. Of these 128Mi, or half if --most is below 256Mi, remain for what is not
packed yet. It removes the oldest traces if the disk is full. If none is left it waits for room. A second recorder of a
folder ends with an error.

--ship has a command, as 'rclone copy {} far:traces', which the recorder runs for each whole trace, one at a time, with
the trace's path for {} or at its end. If it fails or takes longer than ten minutes, the recorder runs it again, after
10 s and then after longer.

It needs python3, crictl (as root, on the node) and one of these:
  - kubectl that may get nodes/proxy and list pods. The recorder starts it once, as a proxy on a socket of its own.
  - a kubelet's port, with --kubelet URL, as https://127.0.0.1:10250, and a token that may get nodes/pods,
    nodes/configz, nodes/metrics and nodes/stats (before Kubernetes 1.33 nodes/proxy instead of the first two). --curl
    FILE is a curl configuration. It has a line for the token, as in: header = "Authorization: Bearer ..", and one to
    check the kubelet's certificate by: cacert = "..". The line insecure takes any certificate, and gives the token to
    whoever answers. With more lines than these, cert, key and resolve, the recorder starts curl for each answer.

With --kubelet none it asks neither, and records what the runtime alone shows: starts, exits, their codes and reasons,
as of pods that always restart. Probes, signals, usage, evictions and why containers wait are missing. A pod is there
once no container of it has come for 20 s. A later container is left out, as after a long init container.

Port 10250 serves /configz, which needs a permission, and so does the API server's proxy; the read-only port 10255 does
not serve it. --node-line FILE has a node line instead.

  It asks                                how often              for
  crictl ps -a -o json                   --look; twice that if  attempts and states
                                         nothing happens
  crictl inspect                         once a start, an exit  startedAt, finishedAt, exitCode, reason, message
  /metrics/probes                        --look                 results of probes, by the growth of counters
  kubectl get pods -o json, or /pods     10 s; after an exit    the pods, without their environment; the pods that the
                                         or a removal; for 30   kubelet evicted or rejected; the codes of removed
                                         s after a restart      containers; why containers wait; how Ready has turned
  /stats/summary                         10 s, or --every; at   capacity, signals and usage, at the moments at which the
                                         each poll while the    kubelet sampled them
                                         kubelet may evict
  /configz                               once                   thresholds, graces and periods
  /metrics                               after a sign of a      when the kubelet was started
                                         restart
  /metrics/cadvisor                      10 s, or 20 times as   how long processors were throttled, as far as the
                                         long as an answer      kubelet has it
                                         takes

It polls each second, whatever --look is, while the kubelet may evict, for 30 s after the kubelet restarted, and for 3 s
after a container failed. The kubelet may evict while a signal is below twice its threshold, and while the node is under
pressure. The ticks have what the kubelet did, why instances ended and why containers wait, for the tools; the program
does not read it.

--standard writes version 2, --extended version 3. Version 3 has a line for a pod that goes, and its new line if its
name comes again. It has evictionPauseSeconds (--eviction-pause) until the evicted pod has ended, and the pods that a
summary lacks, which a kubelet evicts first. It has the pods that the node has ended, so the rules end these and name
the pods that they would evict; with --simulate they evict by themselves.

It leaves out
  - an instance that came and went between two polls and was removed by then, and the code of an exit that neither the
    runtime nor the pod's status knows, which counts as 137: standard error names it
  - the order of several results of one probe between two polls: results like its last earlier one come first, and then
    failures before a success
  - afterReclaim, so no threshold is reclaimed in the replay; thresholds on other signals, and percentages of a signal
    without a capacity; mergeDefaultEvictionSettings
  - ephemeral containers, and of a pod's manifest every field that the formats do not read, as its environment
  - the pods that a kubelet does not list yet since it has just restarted: they stay as they were
  - a pod that the formats reject, the 257th pod, one that the kubelet rejected or had evicted before the recorder saw
    it; in the standard format that a pod has gone, and a new pod of its name

It takes a file system for images of the same size as the node's for the same one. On standard error it prints what it
leaves out, writes otherwise or infers, and each source that gives no answer with what the trace has instead.

Status 0: ended as asked, or all that --check asked works; 1: nothing could be recorded, or not written, as when the
folder of --into can't be, has its recorder, belongs to another user than root or the recorder's, or its group or others
may write it; or a source of --check does not work; 2: a wrong argument; 127: a command is missing.
"""
