"""The details of kubelet-replay page."""

from . import shared

TEXT = """\
It makes one HTML file without any outside part: the node's signals and thresholds as lines over time with the
evictions, a strip for Ready and a lane for each container of each pod. Filter by name, and drag to zoom. Click on a pod
for its story, on an event for its why. With a trace it has the samples, the results of probes and the evictions'
tables. It begins with moments as the options have them, and the reader can switch them; times of a zone are the
browser's.

""" + shared.MOMENTS + """
""" + shared.ORDER + """
""" + shared.SEVERAL + """
Of several traces of one node it makes one page. A gap in which nothing was recorded is hatched.

""" + shared.CLUSTER + """
""" + shared.ALIASES + """\
An argument that is no option is such a TRACE too.

It needs python3, a browser to show it, and the program for traces (KUBELET_REPLAY names another one). The end of the
page lists what it leaves out: without a trace all that a report does not have, and of very much the last part.

""" + shared.STATUS_OF_TRACES.format(more="")
