"""The details of kubelet-replay story."""

from . import shared

TEXT = """\
It prints the report of one pod, NAMESPACE/NAME: its containers, its events, its restarts and what led to each, its
conditions as spans of time, its eviction by the rules. If the trace has it, as a recording does, the story begins with
what the kubelet did. It has with each death the reason, as OOMKilled, and why containers waited. It has when the node
was rebooted, or was not Ready while the pod became unready.

The end of POD may be missing, as in shop/web for shop/web-7d4b9c-x2x1z, and so may its namespace; it has to fit one
pod. Without POD it lists the pods, of one namespace or of all, each with the first event of the worst kind.

""" + shared.ORDER + """
""" + shared.MOMENTS + """
""" + shared.SEVERAL + """
Of several traces it prints one story. With --at it prints the ten minutes on each side, and begins with what led to the
nearest restart. What a trace shows at its beginning was so before, and appears once. Nothing is known of a gap between
two traces, in which no recorder ran or whose trace is missing. Each trace counts exits, grace periods and pauses from
zero, and the story notes that if it matters. It reads a trace in progress (.trace.part) up to its last whole line. An
unusable trace is an error; in a folder the tool leaves it out and prints that.

With --follow it prints in a line each what kubelet-replay record --into records into FOLDER, until an interrupt: from
now on, or since a moment. A line comes ten seconds later, since a recorder may still change what it saw last. A source
of the recorder that is silent for longer delays it more. A pod may be named by the beginning of its name, up to a -. It
also prints that the node is not Ready, or was started again.

""" + shared.CLUSTER + """
From a cluster a story has the last 20 events that matter; --all has each event, and -o json the whole as one JSON
object. On a terminal a story fits its width and has colours unless NO_COLOR is set.

""" + shared.ALIASES + """
With --trace it also prints, unless --without-why, what the trace has around each event, as kubelet-replay why does.

It needs python3, and the program for traces (KUBELET_REPLAY names another one). It takes the story from the report, and
leaves out what a report does not have:
  - the pods that the kubelet evicted: an eviction of the report is one that the rules make of the recorded samples
  - why an instance died, and whether one with the code 137 was killed: a report has that code also if a tick just
    leaves an instance out
  - what the containers of a pod that has ended did later: each has the last state that was recorded by its end, so the
    containers of an evicted pod mostly remain Running
  - the moment of the last tick: the last span of a condition lasts to the end of the trace, whenever that was
  - when Initialized began to be what it was before its last change (written as -)
  - of the eviction's order all but that the evicted pod came first; the others in it had not ended
  - when a pod left, of the extended format. Of pods of one name each has left by the first tick of the next, and an
    event is of the one that was there at its moment. One that did not come again stays, also in an eviction's order.
    With the trace it is known.

""" + shared.STATUS_OF_TRACES.format(more="a pod that is not in it, ")
