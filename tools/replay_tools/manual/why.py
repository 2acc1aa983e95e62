"""The details of kubelet-replay why."""

from . import shared

TEXT = """\
It prints for each event of one pod, NAMESPACE/NAME, what its trace has around it:
  - for a kill, ready and unready the results of the probe since the instance started, with the probe's thresholds
  - for a backoff and a restart the exits that count, with their runs
  - for an eviction the signal's samples since the threshold became active, and the pods that were present with usage,
    request, priority and class, in the order of the rules for that signal
  - for a start, a death and a phase what the tick lists

If the trace has it, as a recording does, it also prints what the kubelet did to the pod, and whether the rules agree.
It prints what an instance used that ran out of memory, and for how long a processor was throttled. It prints that the
node was rebooted, with what exited then, or was not Ready while the pod became unready. The first line has the worst
that happened to the pod, and its place among all.

""" + shared.MOMENTS + """
""" + shared.ORDER + """
""" + shared.SEVERAL + """
With --at it prints the events within ten minutes of the moment.

""" + shared.CLUSTER + """
""" + shared.ALIASES + """
It needs python3, and the program for traces (KUBELET_REPLAY names another one). Events come from the report. The only
rule that it applies itself is the order of eviction candidates. It leaves out all but the last 12 runs of results and
exits of an event, and all but the first and the last 11 samples, and prints how many.

""" + shared.STATUS_OF_TRACES.format(more="a pod that is not in it, ")
