"""The details of kubectl replay."""

from .kubelet_replay import OF_BOTH

OF_CALLER = """\
Without -n the pods are of the namespace of kubectl's context, else of default. -A, --all-namespaces means the pods of
all namespaces. Each call of kubectl gets kubectl's own options: --context, --kubeconfig, --as, --user, --token,
--server and others. story without a pod lists the pods of the namespace of -n, or all. The word replay comes before all
others, since kubectl takes no option of its own before a plugin's name."""
NEEDS = """\
kubectl finds it on the PATH under the name kubectl-replay, and for completion kubectl_complete-replay."""
TEXT = OF_BOTH.format(of_caller=OF_CALLER, needs=NEEDS)
