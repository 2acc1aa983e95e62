"""The details of kubelet-replay run."""

TEXT = """\
It gives the trace to the proved program, and writes the program's report: why each pod was restarted, became unready or
was evicted (docs/report.md). It passes --extended to the program if the trace's node line has version 3; with the
option --extended it does so for every trace. It unpacks a trace that gzip has packed. Without -f it reads the trace on
standard input, and an argument that is no option is a FILE too. Of several files, or of a folder, it writes one report
after the other, in the order of their names. The program's error messages then begin with the name of the trace.

KINDS are one or more of evicted, restarted and unready, with a comma between them. With --fail-on the report is the
same, and standard error names the pods to which it happened. evicted: the kubelet evicted the pod, or the rules if the
trace does not have what the kubelet did. restarted: a container was started again. unready: the pod is not ready at the
end, and has not succeeded.

--workers N is a number from 1 to 64. The report is the same for each.

If the program rejects a trace, one more line has the meaning of the fault; kubelet-replay explain has it in full.

It needs python3 and the program (KUBELET_REPLAY names another one). It leaves out traces of a folder whose names do not
end with .trace, .trace.gz or .trace.part.

Status 0: done; 1: the program failed, as without memory, or standard output takes no more; 2: a wrong argument, a file
that can't be read, or a rejected trace; 3: the program rejects an argument; 4: what --fail-on names happened; 127: a
command is missing. Of several traces it is the greatest.
"""
