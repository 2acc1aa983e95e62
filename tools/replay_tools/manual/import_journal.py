"""The details of kubelet-replay import."""

TEXT = """\
It makes a trace of the extended format (docs/import.md) from the journal of a node's kubelet, if no recorder ran. With
--into it writes one trace after the other, as kubelet-replay record --into does, and the tools report them as one.

--journal FILE is a journal of the kubelet, of containerd or of CRI-O; several in any order, which may overlap, or
standard input ("-"). Without --journal it reads standard input, but with --events or --audit no journal. A journal may
be the output of journalctl with each of its -o, klog's own lines, text or JSON, a kubelet's log from oc adm node-logs,
kubectl logs or a runtime, or the export of a store of logs, as JSON or CSV. gzip may have packed it. Its lines may be
the newest first.

--pods FILE has manifests, as JSON or YAML: kubectl get pods -o json, a list, single pods, their owners (Deployment,
StatefulSet, DaemonSet, ReplicaSet, Job, CronJob: their templates, by the pods' names), static pods' files, audit
events, a watch. A pod without a manifest has the containers that lines name, and no probes.

--events FILE is the output of kubectl get events -o json; --audit FILE is an audit log, which has manifests and
statuses.

--node NAME is the node, if no line names it. If a journal has several nodes, it chooses the lines to read.

--unit NAME is a unit of systemd that runs the kubelet under another name: k3s, k3s-agent, rke2-server, kubelite.
Without it lines are the kubelet's only if their unit is; repeat it for several.

--year N and --zone +02:00 belong to klog's own moments, which have neither: else the year of the file, and UTC.

NODE asks the cluster by kubectl, and needs nothing on the node. It asks for the logs of its kubelet and its runtime
since --since, by the API of Kubernetes 1.30 and newer if NodeLogQuery is on, or else for the file messages or syslog.
It asks for its pods, for their owners and for Events. It goes on without all but the kubelet's log; if the cluster does
not give that, it prints what to run on the node. An answer has to go on within --timeout. It needs the rights to get
nodes/proxy and to list pods, owners and events.

It makes up nothing that the journal lacks. The member "guessed" of the trace marks
  - "exitCode": an exit without its code
  - "moment": a start or an exit that is known by the second of the kubelet's poll
  - "container": an instance that is known by exclusion alone
  - "state": an instance that ran before a hole of the journal, if no line after it names its pod
  - "manifest": a pod whose manifest is made of lines or of its owner

At its end it prints on standard error what the journal had and what it lacked, by kind.

It needs python3, for YAML python3-yaml, for NODE kubectl. It leaves out pods' use of the node, which no journal has. So
the trace exempts each pod, and the rules evict nobody; the kubelet's own evictions appear as such.

Status 0: done; 1: nothing was understood, as of a file that is no journal, of several kubelets whose lines are mixed,
or of manifests of another cluster, and nothing is written; the cluster gives no log; or the result can't be written;
2: a wrong argument, or a file that can't be read; 127: python3-yaml or kubectl is missing.
"""
