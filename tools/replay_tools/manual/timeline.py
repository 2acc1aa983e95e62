"""The details of kubelet-replay timeline."""

from . import shared

TEXT = """\
At the top are the node's pressure and evictions. Below, for each POD, NAMESPACE/NAME, or for all, is a strip that is
green while the pod is Ready, and a lane for each container with a bar for each state. A round mark shows an ordered
restart and a pointed one a kill, in the colours of kubelet-replay page; many close together are a strip below the lane.
Point at a bar, a mark or a strip for its words. A tall picture has its moments at the top too.

If the trace has it, as a recording or an import does, a lane of their own has the evictions that the kubelet made; the
others are by the rules. A bar then has why an instance died, a lane why a container waits, and a small mark below it
what the kubelet reported.

""" + shared.MOMENTS + """
""" + shared.SEVERAL + """
It draws several traces of one node as one. A gap in which nothing was recorded is a grey band. NAMESPACE/ is each pod
of it.

""" + shared.CLUSTER + """
""" + shared.ALIASES + """
It needs python3, and the program for traces (KUBELET_REPLAY names another one). It leaves out what a report does not
have:
  - the moment of the last tick: the picture ends a little after the last moment of the report
  - instances that were created and never ran after another one: the earlier bar goes on
  - without the trace when a pod left, of the extended format: a lane ends with the first tick of the next pod of its
    name, else it goes on
  - without the trace why instances died and what the kubelet did

""" + shared.STATUS_OF_TRACES.format(more="a pod that is not in it, ")
