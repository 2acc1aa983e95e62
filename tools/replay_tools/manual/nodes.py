"""The details of kubelet-replay nodes."""

from . import shared

TEXT = """\
It lists the nodes on which a recorder of deploy/daemonset.yaml runs: since when it has traces (the beginning of the
oldest), up to when (the last write of the newest), how many, and how many bytes they have. If a recorder does not
answer, or does not run, its line has that.

""" + shared.RECORDERS + """find in each of them.

""" + shared.RIGHTS + """
It leaves out nodes that have no such pod. On a node it leaves out files with another node's name, or without a size or
time, and its line has that.

Status 0: done; 1: the recorders can't be listed, some recorder did not answer, or standard output takes no more; 2: a
wrong argument, no recorder; 127: a command is missing.
"""
